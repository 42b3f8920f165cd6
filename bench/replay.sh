#!/usr/bin/env bash
# Times the program on large scripts, each of a tenth and of the whole of the greatest number of lines, 65,536: one long
# entry; many short ones; the shortest lines, which print nothing; comments of 4,096 bytes, the longest lines; CRYPT of
# 1,024 bytes each; and sixteen sessions that submit, lock, cancel and let time go by. The transcript goes to a file. Then
# the generated runs of 500 and of 5,000 rounds.
#
# The program is the first argument, or the one that ./replay --proved builds. MOST is another number of lines.
# It needs python3. No clause tells the time, so this stands outside the gate.
set -euo pipefail
cd "$(dirname "$0")/.."
program=${1:-crates/pinpad_cli/out/pinpad_cli}
if [ ! -x "$program" ]; then
    echo "bench/replay.sh: $program is not there: run ./replay --proved examples/entry.txt first, or name the program" >&2
    exit 2
fi
MOST=${MOST:-65536}
work=$(mktemp -d)
trap 'rm -rf "$work"' EXIT

submit='submit 1 0 getpin 4 16 hold 000F03FF00000000 0003000000000000'

# Each of these prints a script of at most so many lines.

# One entry that is filled and cleared again and again, and ended by Enter at last.
long_entry() {
    printf 'boot\nopen 1\nlisten 1 execute\n%s\nauto\n' "$submit"
    awk -v lines=$(($1 - 10)) 'BEGIN {
        for (n = 0; n < lines; n++) print n % 20 == 19 ? "press clear" : "press " n % 10
    }'
    printf 'press 1\npress 2\npress 3\npress 4\npress enter\n'
}

# Entries that are each ended by CANCEL at once.
short_entries() {
    printf 'boot\nopen 1\nlisten 1 execute\n'
    awk -v entries=$((($1 - 3) / 3)) -v submit="$submit" 'BEGIN {
        for (n = 0; n < entries; n++) print submit "\nauto\npress cancel"
    }'
}

# The shortest lines. Nothing is due.
short_lines() {
    awk -v lines="$1" 'BEGIN { for (n = 0; n < lines; n++) print "auto" }'
}

# The longest lines.
long_lines() {
    awk -v lines="$1" 'BEGIN {
        line = "#"
        while (length(line) < 4096) line = line "."
        for (n = 0; n < lines; n++) print line
    }'
}

# A message of the greatest length, encrypted again and again. Each answer is kept to the end of the run.
long_messages() {
    printf 'boot\nopen 1\nsubmit 1 0 import K clear 0123456789ABCDEF 0001 none\nauto\n'
    awk -v messages=$((($1 - 4) / 2)) 'BEGIN {
        while (length(bytes) < 2048) bytes = bytes "5A"
        for (n = 0; n < messages; n++) print "submit 1 0 crypt cbc encrypt K - 00 " bytes "\nauto"
    }'
}

# Sixteen sessions, in turn: a request is canceled while the session holds the lock, and another comes into work or times out.
sessions() {
    awk -v lines="$1" 'BEGIN {
        print "boot"
        for (s = 1; s <= 16; s++) print "open " s
        for (n = 0; n < lines - 17; n++) {
            s = int(n / 7) % 16 + 1
            if (n % 7 == 0) print "submit " s " 2 maintain on"
            if (n % 7 == 1) print "lock " s
            if (n % 7 == 2) print "cancel " s " 0"
            if (n % 7 == 3) print "submit " s " 2 reset"
            if (n % 7 == 4) print "unlock " s
            if (n % 7 == 5) print "tick 1"
            if (n % 7 == 6) print "begin"
        }
    }'
}

# The script of so many generated rounds, without their power cuts. Its check and its code are asked under these two keys.
rounds() {
    printf 'boot\nopen 1\nopen 2\nlisten 1 both\nlisten 2 service\nsubmit 1 0 maintain on\nauto\n'
    printf 'submit 1 0 import P clear 0000000000000000 0002 zero\nsubmit 2 0 import M clear 0123456789ABCDEF 0004 zero\nauto\n'
    awk -v rounds="$1" -v check="$2" -v code="$3" 'BEGIN {
        for (i = 0; i < rounds; i++) {
            print "submit 1 0 getpin 4 4 auto 000303FF00000000 0003000000000000\nauto"
            for (j = 0; j < 4; j++) print "press " (i + 3 * j) % 10
            print "submit 1 0 localdes " check " 0000000000000000 0 2163 4 lead 0123456789012345\nauto"
            print "submit 2 0 crypt mac encrypt " code " - 00 4E6F772069732074\nauto"
        }
    }'
}

# timed SCRIPT WORD..: runs the program five times with these words on a script, and prints the least seconds and the peak of memory in KB, which is never
# less than that of the process here that starts it.
timed() {
    python3 - "$program" "$1" "$work/transcript" "${@:2}" <<'PYTHON'
import os, sys, time

program, script, transcript, *words = sys.argv[1:]
seconds, peak = [], []
for _ in range(5):
    streams = [
        (os.POSIX_SPAWN_OPEN, 0, script, os.O_RDONLY, 0),
        (os.POSIX_SPAWN_OPEN, 1, transcript, os.O_WRONLY | os.O_CREAT | os.O_TRUNC, 0o600),
    ]
    begun = time.monotonic()
    child = os.posix_spawn(program, [program, *words], os.environ, file_actions=streams)
    _, status, used = os.wait4(child, 0)
    seconds.append(time.monotonic() - begun)
    peak.append(used.ru_maxrss)
    if status:
        sys.exit(f"the program ended with status {os.waitstatus_to_exitcode(status)}")
print(f"{min(seconds):.3f}", max(peak))
PYTHON
}

for kind in long_entry short_entries short_lines long_lines long_messages sessions; do
    taken=()
    each=()
    for most in $((MOST / 10)) "$MOST"; do
        "$kind" "$most" >"$work/script"
        measured=$(timed "$work/script" replay)
        read -r seconds peak <<<"$measured"
        lines=$(wc -l <"$work/script")
        printf '%-14s %6d lines %10d bytes %8s s %8d KB\n' "$kind" "$lines" "$(wc -c <"$work/script")" "$seconds" "$peak"
        taken+=("$seconds")
        each+=("$(awk -v seconds="$seconds" -v lines="$lines" 'BEGIN { printf "%.2f", 1e6 * seconds / lines }')")
    done
    awk -v kind="$kind" -v small="${taken[0]}" -v large="${taken[1]}" -v one="${each[0]}" -v other="${each[1]}" \
        'BEGIN { printf "%-14s the large one takes %.1f times as long, %s and %s microseconds a line\n", kind, large / small, one, other }'
done

# What the ciphers take of a generated run is told by the same rounds under keys that are not there, for which nothing is
# enciphered: the difference has also what a check and a code do beside their ciphers.
rounds 5000 P M >"$work/script"
read -r enciphered _ <<<"$(timed "$work/script" replay)"
rounds 5000 Q N >"$work/script"
read -r refused _ <<<"$(timed "$work/script" replay)"
awk -v all="$enciphered" -v less="$refused" 'BEGIN {
    printf "5,000 rounds take %.3f s, and %.3f s where no key is found: the ciphers take at most %.0f %%\n", all, less, 100 * (1 - less / all)
}'

for rounds in 500 5000; do
    measured=$(timed /dev/null gen "$rounds")
    read -r seconds peak <<<"$measured"
    read -r _ _ _ steps _ <"$work/transcript"
    awk -v rounds="$rounds" -v seconds="$seconds" -v peak="$peak" -v steps="$steps" 'BEGIN {
        printf "gen %-10d %6d steps %8s s %8d KB, %.2f microseconds a step\n", rounds, steps, seconds, peak, 1e6 * seconds / steps
    }'
done
