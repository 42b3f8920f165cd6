#!/usr/bin/env bash
# How long an import takes, in processor time: by a script of 10,000 imports under 64 names, each of a key of 16 bytes in
# clear with its key check value, over a disk in memory that is empty at first. So the first 64 fill the store, and each
# later one replaces a key. What is timed is the whole way of an import through the program: its lines are read; it is
# submitted, begun and finished, which decides it, makes the check value and calls the disk four times; and it is printed.
# The program's start is in it too, a ten-thousandth of it in each import.
#
# What the ciphers take of it is told by the same script without check values, for nothing else of an import in clear is
# enciphered. The difference has two keys' rounds, three blocks of DES, and the six digits that are printed.
#
# The two scripts take turns, RUNS times (9), and the least time of each counts. No clause tells the time, so this stands
# outside the gate. The program is the first argument, or the one that ./replay --proved builds. It needs python3.
set -euo pipefail
cd "$(dirname "$0")/.."
program=${1:-crates/pinpad_cli/out/pinpad_cli}
if [ ! -x "$program" ]; then
    echo "bench/imports.sh: $program is not there: run ./replay --proved examples/entry.txt first, or name the program" >&2
    exit 2
fi
RUNS=${RUNS:-9}
IMPORTS=${IMPORTS:-10000}
work=$(mktemp -d)
trap 'rm -rf "$work"' EXIT

# imports MODE: the script, with this mode of the key check values. No two values are the same.
imports() {
    printf 'boot\nopen 1\n'
    awk -v imports="$IMPORTS" -v mode="$1" 'BEGIN {
        for (n = 0; n < imports; n++)
            printf "submit 1 0 import K%02d clear %016X%016X 0002 %s\nauto\n", n % 64, n, n + 1, mode
    }'
}

imports zero >"$work/zero"
imports none >"$work/none"
python3 - "$program" "$work" "$RUNS" "$IMPORTS" <<'PYTHON'
import os, re, sys

program, work, runs, imports = sys.argv[1], sys.argv[2], int(sys.argv[3]), int(sys.argv[4])
answers = {"zero": rb"[0-9A-F]{6}", "none": rb"-"}


# Runs the program once, looks whether each import was answered, and tells the seconds of processor time.
def seconds(mode):
    transcript = f"{work}/transcript"
    streams = [
        (os.POSIX_SPAWN_OPEN, 0, f"{work}/{mode}", os.O_RDONLY, 0),
        (os.POSIX_SPAWN_OPEN, 1, transcript, os.O_WRONLY | os.O_CREAT | os.O_TRUNC, 0o600),
    ]
    child = os.posix_spawn(program, [program, "replay"], os.environ, file_actions=streams)
    _, status, used = os.wait4(child, 0)
    if status:
        sys.exit(f"the program ended with status {os.waitstatus_to_exitcode(status)}")
    with open(transcript, "rb") as printed:
        done = len(re.findall(rb"^< 1 ended \d+ OK key " + answers[mode] + rb"$", printed.read(), re.MULTILINE))
    if done != imports:
        sys.exit(f"{done} of {imports} imports were answered")
    return used.ru_utime + used.ru_stime


taken = {"zero": [], "none": []}
for _ in range(runs):
    for mode in taken:
        taken[mode].append(seconds(mode))
whole, plain = min(taken["zero"]), min(taken["none"])
print(f"an import:    {whole / imports * 1e6:7.1f} microseconds ({imports} imports in {whole:.3f} s)")
print(f"the ciphers:  {(whole - plain) / imports * 1e6:7.1f} microseconds, {(whole - plain) / whole:.1%} of it")
PYTHON
