#!/usr/bin/env bash
# How long 10,000 and 100,000 rounds on a queue take: each submits a request, finds, begins and finishes it. No clause tells
# that a call costs the same however many requests have ended, so this stands outside the gate. Where it does, the large
# queue takes about ten times as long; where each call looked at the ended requests, it would be about a hundred times.
# Each program is a crate of its own in a folder that is thrown away.
set -euo pipefail
cd "$(dirname "$0")/.."

folder=$(mktemp -d)
trap 'rm -rf "$folder"' EXIT
mkdir "$folder/crates"
cp -r crates/pad_words crates/request_queue "$folder/crates/"
rm -rf "$folder/crates/request_queue/must-fail"
grep -E '^(pad_words|request_queue):' crates.txt > "$folder/crates.txt"

# measure NAME ROUNDS TIMES: how many microseconds so many rounds take, by a program that does them on so many queues.
measure() {
    mkdir -p "$folder/crates/$1/src"
    echo "$1: pad_words request_queue" >> "$folder/crates.txt"
    cat > "$folder/crates/$1/src/main.rt" <<CODE
//! Rounds on queues of requests.
#![tactic(auto)]

use pad_words::Session;
use request_queue::Queue;

// A request is submitted, found, begun and finished.
fn is_done(queue: &mut Queue<u8, u32>, session: Session) -> bool {
    if queue.last_id() >= 4294967294 || queue.submit(session, 0, 0, 7).is_err() {
        return false;
    }
    let Some(id) = queue.next_for(None) else {
        return false;
    };
    if queue.in_work().is_some() || queue.first_due(1).is_some() {
        return false;
    }
    queue.begin(id);
    if queue.owner(id).is_none() {
        return false;
    }
    queue.finish(id, id);
    true
}

fn main(rt: HostRuntime) {
    let mut ended = 0u32;
    for _ in 0..$3u32 {
        let mut queue: Queue<u8, u32> = Queue::new(rt.alloc());
        for _ in 0..$2u32 {
            if let Some(session) = Session::new(1) {
                is_done(&mut queue, session);
            }
        }
        ended = ended.saturating_add(queue.ended());
    }
    let _ = println!(rt; "{ended}");
}
CODE
    cd "$folder/crates/$1"
    rt run > "$folder/log" 2>&1 || { cat "$folder/log" >&2; exit 1; }
    start=${EPOCHREALTIME/./}
    ended=$("./out/$1")
    end=${EPOCHREALTIME/./}
    [ "$ended" = "$(($2 * $3))" ] || { echo "$1: $ended requests ended" >&2; exit 1; }
    echo "$(((end - start) / $3))"
}

small=$(measure small 10000 500)
large=$(measure large 100000 50)
echo "10,000 rounds:  $small microseconds"
echo "100,000 rounds: $large microseconds"
awk -v small="$small" -v large="$large" 'BEGIN { printf "the large one takes %.1f times as long\n", large / small }'
