#!/usr/bin/env bash
# Whether the program ends well whichever allocation of a run fails. Two scripts are replayed, one of ordinary use and one
# whose power is cut in an import, over and over: in the first run the first allocation fails, in the second the second,
# and so on, until three runs in a row need no allocation more. Each run must end with status 5, when a front of its
# transcript was printed, or with status 0 and the whole. No clause tells when memory is wanting, so this stands outside
# the gate.
#
#     bench/memory.sh [PROGRAM [LIVE]]
#     bench/memory.sh unproved [FIRST [LAST]]
#
# The first form runs PROGRAM, or the one that ./replay --proved builds, beside a small library that makes an allocation
# fail; it needs a C compiler and the GNU C library, and takes a few seconds. Then it runs LIVE, or the pinpad_live that
# ./live --proved builds, on a script of two lanes, in the same way: what is printed must be what PROGRAM prints for the
# steps in it, and with status 0 these must be the steps of both lanes. The second form needs the kit alone: its
# `rt try` makes an allocation of the unproved code fail, and builds it anew for each, which takes about half a minute.
# The allocations are those from FIRST (1) to LAST; lanes are not run.
#
# A line is printed for each allocation, with the status and the bytes printed of either script, below it what is wrong,
# and at the end how many runs were compared and how many were wrong. The status is 1 where one was.
set -euo pipefail
cd "$(dirname "$0")/.."
top=$PWD
program=${1:-$top/crates/pinpad_cli/out/pinpad_cli}
live=${2:-$top/crates/pinpad_live/out/pinpad_live}
first=1
last=1000000
if [ "$program" = unproved ]; then
    first=${2:-1}
    last=${3:-1000000}
elif [ ! -x "$program" ]; then
    echo "bench/memory.sh: $program is not there: run ./replay --proved examples/entry.txt first, or name the program" >&2
    exit 2
fi
work=$(mktemp -d)
trap 'rm -rf "$work"' EXIT
mkdir "$work/scripts" "$work/wanted" "$work/printed"

cat >"$work/scripts/ordinary" <<'END'
boot
open 1
listen 1 execute
submit 1 0 import PPK clear 0000000000000000 0002 zero
auto
submit 1 300 getpin 4 6 hold 000F03FF00000000 0003000000000000
auto
press 1
press 2
press 3
press 4
press enter
submit 1 0 pinblock iso0 PPK - - 543210123456789 F
auto
END
cat >"$work/wanted/ordinary" <<'END'
> boot / loaded 0 first
> open 1
< 1 told open
> listen 1 execute
< 1 told listening execute
> submit 1 0 import PPK clear 0000000000000000 0002 zero
< 1 request 1
> begin
> finish / done
< 1 ended 1 OK key 8CA64D
> submit 1 300 getpin 4 6 hold 000F03FF00000000 0003000000000000
< 1 request 2
> begin
< 1 event ENTERDATA
> press *
< 1 event KEY *
> press *
< 1 event KEY *
> press *
< 1 event KEY *
> press *
< 1 event KEY *
> press enter
< 1 event KEY enter
< 1 ended 2 OK entered 4 enter
> submit 1 0 pinblock iso0 PPK - - 543210123456789 F
< 1 request 3
> begin
> finish
< 1 ended 3 OK block DFB4F453C786CCBB
END
cat >"$work/scripts/struck" <<'END'
boot
open 1
cut 3 fill 77
submit 1 0 import PPK clear 0000000000000000 0002 zero
auto
boot
ask 1 names
END
cat >"$work/wanted/struck" <<'END'
> boot / loaded 0 first
> open 1
< 1 told open
> submit 1 0 import PPK clear 0000000000000000 0002 zero
< 1 request 1
> begin
> finish / cut 0
< 1 ended 1 CONNECTIONLOST
> boot / loaded 1 new
> ask 1 names
< 1 told names 1 PPK
END

# The library that makes the allocation of the number in FAILING fail, and tells so.
cat >"$work/failing.c" <<'END'
#include <errno.h>
#include <stdlib.h>
#include <unistd.h>

void *__libc_malloc(size_t size);
void *__libc_realloc(void *old, size_t size);

static long left;

__attribute__((constructor)) static void begin(void) {
    const char *number = getenv("FAILING");
    left = number ? strtol(number, NULL, 10) : 0;
}

static int is_failing(void) {
    if (left <= 0 || __sync_sub_and_fetch(&left, 1) != 0)
        return 0;
    (void)!write(2, "refused\n", 8);
    errno = ENOMEM;
    return 1;
}

void *malloc(size_t size) { return is_failing() ? NULL : __libc_malloc(size); }

void *realloc(void *old, size_t size) { return is_failing() ? NULL : __libc_realloc(old, size); }
END
[ "$program" = unproved ] || cc -shared -fPIC -O1 -o "$work/failing.so" "$work/failing.c"

# run_unproved NUMBER: replays the scripts by the kit.
run_unproved() {
    local name
    (cd crates/pinpad_cli && rt try --cases "$work/scripts" --fail-alloc "$1" -- replay) \
        >"$work/told" 2>"$work/said" || true
    awk -v folder="$work/printed" '/^== / { file = folder "/" $2; next } file { print >file }' "$work/told"
    for name in ordinary struck; do
        sed -n "s/^case=$name run=ended status=\([0-9]*\) .*/\1/p" "$work/said" >"$work/$name.status"
    done
}

# replay NUMBER: replays the scripts, with this allocation failing. What each prints and its status are then in files.
replay() {
    local name status
    : >"$work/printed/ordinary"
    : >"$work/printed/struck"
    if [ "$program" = unproved ]; then
        run_unproved "$1"
        return
    fi
    : >"$work/said"
    for name in ordinary struck; do
        status=0
        FAILING=$1 LD_PRELOAD=$work/failing.so "$program" replay \
            <"$work/scripts/$name" >"$work/printed/$name" 2>>"$work/said" || status=$?
        echo "$status" >"$work/$name.status"
    done
}

# is_front FILE WHOLE: the file is a front of the other.
is_front() { cmp -s "$1" <(head -c "$(wc -c <"$1")" "$2"); }

# is_ended NAME STATUS: the run ended as it may.
is_ended() {
    case $2 in
        0) cmp -s "$work/printed/$1" "$work/wanted/$1" ;;
        5) is_front "$work/printed/$1" "$work/wanted/$1" ;;
        *) return 1 ;;
    esac
}

compared=0
wrong=0
whole=0
number=$first
while [ "$number" -le "$last" ] && [ "$whole" -lt 3 ]; do
    replay "$number"
    line="allocation $number:"
    whole=$((whole + 1))
    : >"$work/wrong"
    for name in ordinary struck; do
        status=$(cat "$work/$name.status")
        line="$line $name ${status:-none} $(wc -c <"$work/printed/$name")"
        [ "$status" = 0 ] || whole=0
        compared=$((compared + 1))
        if ! is_ended "$name" "${status:-none}"; then
            wrong=$((wrong + 1))
            echo "$name ends with status ${status:-none} and prints" >>"$work/wrong"
            cat "$work/printed/$name" "$work/said" >>"$work/wrong"
        fi
    done
    echo "$line"
    cat "$work/wrong"
    number=$((number + 1))
done
# Lanes on threads: lane 1 enters a PIN, and lane 2 asks for the status at any time.
cat >"$work/lanes" <<'END'
@1 boot
@1 open 1
@1 submit 1 0 getpin 4 16 hold 000F03FF00000000 0003000000000000
@1 await entry
@1 press 1
@1 press 2
@1 press 3
@1 press 4
@1 press enter
@1 await 1 reply #1
@2 open 2
@2 ask 2 status
END

# steps FILE: the steps that were printed, as lines of a script; the digits are those of lane 1, in its order.
steps() {
    sed -n 's|^> \(.*\)|\1|p' "$1" | sed 's| / .*||' |
        awk '$0 == "press *" { digit++; print "press " digit; next } { print }'
}

# is_history FILE: the text is that of its steps.
is_history() {
    steps "$1" >"$work/replayed"
    "$program" replay <"$work/replayed" | cmp -s - "$1"
}

# are_lanes FILE: the steps are those of both lanes, but for the worker's and what is asked while a request is pending.
are_lanes() {
    steps "$1" | grep -v '^begin$\|^finish$' | awk '/^(open|ask) 2( |$)/ { print >"/dev/stderr"; next } { print }' 2>"$work/second" |
        uniq | cmp -s - <(printf '%s\n' boot 'open 1' \
            'submit 1 0 getpin 4 16 hold 000F03FF00000000 0003000000000000' \
            'press 1' 'press 2' 'press 3' 'press 4' 'press enter' 'ask 1 reply 1') &&
        cmp -s "$work/second" <(printf 'open 2\nask 2 status\n')
}

number=1
unreached=0
if [ "$program" = unproved ] || [ ! -x "$live" ]; then
    echo "no lanes are run: $live is not there, or the program is unproved"
    unreached=3
fi
while [ "$unreached" -lt 3 ]; do
    status=0
    FAILING=$number LD_PRELOAD=$work/failing.so timeout 60 "$live" live \
        <"$work/lanes" >"$work/printed/lanes" 2>"$work/said" || status=$?
    unreached=$((unreached + 1))
    ! grep -q '^refused$' "$work/said" || unreached=0
    echo "allocation $number: lanes $status $(wc -c <"$work/printed/lanes")"
    compared=$((compared + 1))
    case $status in
        0) is_history "$work/printed/lanes" && are_lanes "$work/printed/lanes" ;;
        5) is_history "$work/printed/lanes" ;;
        *) false ;;
    esac || {
        wrong=$((wrong + 1))
        echo "lanes end with status $status and print"
        cat "$work/printed/lanes" "$work/said"
    }
    number=$((number + 1))
done
echo "compared $compared, wrong $wrong"
[ "$wrong" = 0 ]
