#!/usr/bin/env bash
# loop.sh RUN [ROUND]
# Solves the open cubes of a run by any scheduler, round after round, until none is open.
# START is what starts a command as a job and waits for its end, as 'bsub -K', 'qsub -sync y -b y' or
# 'srun -n 1'; without it all parts run here at once. The folder RUN is one that all machines see under the
# same path, made by
#     cubesat divide --into RUN --search focused FORMULA
# PARTS is how many jobs a round has (64, without START a processor each), MINUTES how long one may take
# (60), HANDS by how many threads it is solved (1), CUBESAT the program (cubesat). The status is 0 then:
# `cubesat gather --proof PATH RUN` checks the packs, and writes the proof and the answer. It is 3 where no job
# of a round ended well and no pack came, twice.
set -eu
run=$1
round=${2:-$(ls "$run/rounds" | tail -n 1)}
parts=${PARTS:-$([ -n "${START:-}" ] && echo 64 || nproc)}
program=${CUBESAT:-cubesat}
packs() { find "$run/packs" -name '*.pack' 2> /dev/null | wc -l; }
failed=0
while true; do
    before=$(packs) jobs=() ended_well=0
    for part in $(seq "$parts"); do
        ${START:-} "$program" conquer --round "$((10#$round))" --part "$part/$parts" --minutes "${MINUTES:-60}" --hands "${HANDS:-1}" "$run" &
        jobs+=($!)
    done
    for job in "${jobs[@]}"; do
        status=0
        wait "$job" || status=$?
        # 75: its time is over, and the next round has what is left
        case $status in 0 | 75) ended_well=1 ;; esac
    done
    if [ "$ended_well" = 0 ] && [ "$(packs)" = "$before" ]; then
        failed=$((failed + 1))
        [ "$failed" = 1 ] && continue
        echo "loop.sh: no part of round $round ended well, twice; what they printed says why" >&2
        exit 3
    fi
    failed=0
    open=$("$program" divide --into "$run") || exit
    [ "$open" != 0 ] || exit 0
    round=$(ls "$run/rounds" | tail -n 1)
done
