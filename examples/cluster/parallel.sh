#!/usr/bin/env bash
# parallel.sh RUN [ROUND]
# Solves the open cubes of a run on machines that GNU parallel reaches, round after round, until none
# is open. The folder RUN is one that all machines see under the same path, made by
#     cubesat divide --into RUN --search focused FORMULA
# LOGINS is a file for --sshloginfile, a line a machine, as 16/node1 for 16 jobs there; without it all
# runs here. PARTS is how many parts a round has (64), MINUTES how long a part may take (60), HANDS by
# how many threads each is solved (1), CUBESAT the program (cubesat). The status is 0 then: `cubesat
# gather --proof PATH RUN` checks the packs, and writes the proof and the answer. It is 3 where no part
# of a round ended well and no pack came, twice: RUN/joblog.ROUND has the status of each part.
set -eu
fail() {
    echo "parallel.sh: $1" >&2
    exit 1
}
[ $# -ge 1 ] || fail "name the folder of a run: parallel.sh RUN [ROUND]"
run=$1
[ -e "$run/run" ] || fail "$run is no run: make one by cubesat divide --into $run FORMULA"
round=${2:-$(ls "$run/rounds" | tail -n 1)}
parts=${PARTS:-64}
minutes=${MINUTES:-60}
hands=${HANDS:-1}
program=${CUBESAT:-cubesat}
where=()
command -v parallel > /dev/null || fail "GNU parallel isn't there: install it, or call loop.sh from a scheduler's jobs"
command -v "$program" > /dev/null || fail "the program $program isn't there: set CUBESAT to its path, which all machines have"
if [ -n "${LOGINS:-}" ]; then
    [ -r "$LOGINS" ] || fail "the file of logins $LOGINS can't be read"
    command -v ssh > /dev/null || fail "ssh isn't there, which GNU parallel calls for the machines of $LOGINS"
    where=(--sshloginfile "$LOGINS" --filter-hosts)
fi
packs() { find "$run/packs" -name '*.pack' 2> /dev/null | wc -l; }
# the seventh column of the log has a job's status
has_ended_well() { awk 'NR > 1 && $7 == 0 { found = 1 } END { exit !found }' "$run/joblog.$round" 2> /dev/null; }
failed=0
while true; do
    before=$(packs)
    rm -f "$run/joblog.$round" # one of an earlier try would speak for a round that isn't begun
    # A part whose time is over has status 75, and leaves cubes for the next round: it isn't tried again.
    # One that failed on a machine is, on others; and what is left then is in the next round too.
    job="$(printf '%q ' "$program" conquer --round "$((10#$round))") --part {}/$parts --minutes $minutes --hands $hands $(printf '%q' "$run") || [ \$? = 75 ]"
    parallel ${where[@]+"${where[@]}"} --retries 3 --joblog "$run/joblog.$round" "$job" ::: $(seq "$parts") || true
    if ! has_ended_well && [ "$(packs)" = "$before" ]; then
        failed=$((failed + 1))
        [ "$failed" = 1 ] && continue
        echo "parallel.sh: no part of round $round ended well, twice; see $run/joblog.$round, and try one by hand:" >&2
        echo "    $program conquer --round $((10#$round)) --part 1/$parts --minutes $minutes --hands $hands $run" >&2
        exit 3
    fi
    failed=0
    open=$("$program" divide --into "$run") || exit
    [ "$open" != 0 ] || exit 0
    round=$(ls "$run/rounds" | tail -n 1)
done
