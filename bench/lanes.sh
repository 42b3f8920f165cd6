#!/usr/bin/env bash
# Times sessions on threads: 1, 2, 4, 8 and 16 lanes of 4,096 lines each, of which each lane opens a session of its own and
# then submits, asks and ticks. Prints the steps a second, by the clock, and the turn's share: what the program takes more
# processor time for the lanes than pinpad_cli does for the same steps in the order in which they were printed, as a part
# of the whole. Reading and printing is in both.
#
#     bench/lanes.sh [PINPAD_LIVE [PINPAD_CLI]]
#
# The programs are those, or the ones that `rt run` builds in the folders of the crates. It needs python3. No clause tells
# the time, so this stands outside the gate.
set -euo pipefail
cd "$(dirname "$0")/.."
live=${1:-crates/pinpad_live/out/pinpad_live}
replay=${2:-crates/pinpad_cli/out/pinpad_cli}
for program in "$live" "$replay"; do
    if [ ! -x "$program" ]; then
        echo "bench/lanes.sh: $program is not there: build it by 'rt run' in its crate, or name it" >&2
        exit 2
    fi
done
LINES_OF_LANE=${LINES_OF_LANE:-4096}
work=$(mktemp -d)
trap 'rm -rf "$work"' EXIT

# lanes COUNT: a script of so many lanes. What a lane asks for is answered at once, so no lane waits for another.
lanes() {
    awk -v lanes="$1" -v lines="$LINES_OF_LANE" 'BEGIN {
        print "@1 boot"
        for (n = 1; n < lines; n++)
            for (lane = 1; lane <= lanes; lane++) {
                if (n == 1) step = "open " lane
                else if (n % 4 == 2) step = "submit " lane " 0 maintain on"
                else if (n % 4 == 3) step = "ask " lane " status"
                else if (n % 4 == 0) step = "tick 1"
                else step = "ask " lane " names"
                print "@" lane " " step
            }
    }'
}

# timed PROGRAM SCRIPT WORD..: the least seconds by the clock of five runs, and the least processor seconds.
timed() {
    python3 - "$1" "$2" "$work/transcript" "${@:3}" <<'PYTHON'
import os, sys, time

program, script, transcript, *words = sys.argv[1:]
seconds, used_by = [], []
for _ in range(5):
    streams = [
        (os.POSIX_SPAWN_OPEN, 0, script, os.O_RDONLY, 0),
        (os.POSIX_SPAWN_OPEN, 1, transcript, os.O_WRONLY | os.O_CREAT | os.O_TRUNC, 0o600),
    ]
    begun = time.monotonic()
    child = os.posix_spawn(program, [program, *words], os.environ, file_actions=streams)
    _, status, used = os.wait4(child, 0)
    seconds.append(time.monotonic() - begun)
    used_by.append(used.ru_utime + used.ru_stime)
    if status:
        sys.exit(f"{program} ended with status {os.waitstatus_to_exitcode(status)}")
print(f"{min(seconds):.3f} {min(used_by):.3f}")
PYTHON
}

for count in 1 2 4 8 16; do
    lanes "$count" >"$work/script"
    measured=$(timed "$live" "$work/script" live)
    read -r seconds processor <<<"$measured"
    # The printed steps are lines of a script, but for the word of the disk behind some of them.
    sed -n 's|^> \(.*\)|\1|p' "$work/transcript" | sed 's| / .*||' >"$work/replayed"
    steps=$(wc -l <"$work/replayed")
    measured=$(timed "$replay" "$work/replayed" replay)
    read -r _ alone <<<"$measured"
    awk -v lanes="$count" -v steps="$steps" -v seconds="$seconds" -v live="$processor" -v alone="$alone" 'BEGIN {
        printf "%2d lanes %7d steps %8.3f s %9.0f steps a second, the turn takes %.0f %%\n", lanes, steps, seconds, steps / seconds, 100 * (1 - alone / live)
    }'
done
