#!/usr/bin/env bash
# sbatch --array=1-64 slurm.sbatch RUN [ROUND]
# Solves a part of a run's open cubes in each task of a job array. The folder RUN is one that all
# nodes see, made by
#     cubesat divide --into RUN --search focused FORMULA
# The first task of a round also submits what comes behind it: once all tasks of the array have ended,
# however they did, the next round is written, and its array submitted, until no cube is open. `cubesat
# gather --proof PATH RUN` checks the packs then, and writes the proof and the answer. Where no task of a
# round ended well and no pack came, the round is tried once more; then the last job ends with
# status 3. CUBESAT is the program (cubesat); with --cpus-per-task=H each part is solved by H threads.
# Slurm has at most 1001 tasks in an array unless the cluster says otherwise, so a task takes a slice
# of the cubes.
#SBATCH --ntasks=1
#SBATCH --cpus-per-task=1
#SBATCH --mem=2G
#SBATCH --time=01:10:00
#SBATCH --job-name=cubesat
set -u
run=$1
round=${2:-$(ls "$run/rounds" | tail -n 1)}
program=${CUBESAT:-cubesat}
packs() { find "$run/packs" -name '*.pack' 2> /dev/null | wc -l; }
if [ -n "${NEXT:-}" ]; then
    if [ ! -e "$run/ended.$round" ] && [ "$(packs)" = "$PACKS" ]; then
        if [ -n "${AGAIN:-}" ]; then
            echo "slurm.sbatch: no task of round $round ended well, twice; their outputs say why" >&2
            exit 3
        fi
        NEXT='' AGAIN=1 sbatch --export=ALL --array="$PARTS" "$0" "$run" "$round"
    elif open=$("$program" divide --into "$run") && [ "$open" != 0 ]; then
        NEXT='' AGAIN='' sbatch --export=ALL --array="$PARTS" "$0" "$run"
    fi
    exit 0
fi
array=${SLURM_ARRAY_TASK_MIN:-1}-${SLURM_ARRAY_TASK_MAX:-1}
if [ "$SLURM_ARRAY_TASK_ID" = "${SLURM_ARRAY_TASK_MIN:-1}" ]; then
    NEXT=1 PARTS=$array PACKS=$(packs) sbatch --export=ALL --dependency="afterany:$SLURM_ARRAY_JOB_ID" "$0" "$run" "$round"
fi
"$program" conquer --round "$((10#$round))" --part "$SLURM_ARRAY_TASK_ID/${SLURM_ARRAY_TASK_MAX:-1}" --minutes 60 --hands "${SLURM_CPUS_PER_TASK:-1}" "$run"
status=$?
# 75: its time is over, and the next round has what is left
case $status in 0 | 75) touch "$run/ended.$round" ;; esac
exit "$status"
