#!/usr/bin/env bash
# What seven lanes at one desk have of it while an eighth keeps commands CRYPT of 1,024 bytes queued and a worker does them:
# calls and glances a second, the longest time that a call took, and how many commands were done a second. Prints each
# figure of so many runs (RUNS, 3 where it is not set), and of as many runs without the eighth lane's commands.
#
#     bench/crypts.sh [FOLDER]
#
# The crates are those of the repository in that folder, or of this one: so two states of it are compared. No clause tells
# the time, so this stands outside the gate. The program is a crate of its own in a folder that is thrown away.
set -euo pipefail
source=$(cd "${1:-$(dirname "$0")/..}" && pwd)
RUNS=${RUNS:-3}

folder=$(mktemp -d)
trap 'rm -rf "$folder"' EXIT
needed=$(sed -n 's/^pad_desk [^:]*: //p' "$source/crates.txt")
mkdir "$folder/crates"
: > "$folder/crates.txt"
for name in spelled_words pad_desk $needed; do
    if [ -d "$source/crates/$name" ]; then
        mkdir "$folder/crates/$name"
        cp -r "$source/crates/$name/src" "$source/crates/$name/specs" "$folder/crates/$name/"
        if [ -d "$source/crates/$name/proofs" ]; then
            cp -r "$source/crates/$name/proofs" "$folder/crates/$name/"
        fi
        grep -E "^$name( [^:]*)?:" "$source/crates.txt" >> "$folder/crates.txt"
    fi
done
cp "$source/HANDLES" "$folder/HANDLES"
mkdir -p "$folder/crates/crypt_lanes/src"
echo "crypt_lanes: pad_desk $needed" >> "$folder/crates.txt"
cat > "$folder/crates/crypt_lanes/src/main.rt" <<'CODE'
//! Lanes at one desk, one of which has commands CRYPT queued.
#![tactic(auto)]

use disk_core::MemDisk;
use local_check::StandardWork;
use pad_desk::{Desk, DeskPass};
use pad_machine::Pad;
use pad_steps::{Algorithm, Command, CryptRequest, ImportRequest, ImportSource, Question, Start, Step, Verify};
use pad_words::{Direction, KeyName, Octets, Session};
use std::alloc::Global;
use std::env;
use std::sync::Wait;
use std::sync::atomic::{AtomicU64, Ordering};
use std::thread;
use std::thread::{Threads, join};
use std::time::{Clock, Duration, Instant};

type MemoryDesk = Desk<StandardWork, MemDisk>;
type MemoryPass = DeskPass<StandardWork, MemDisk>;

/// How many calls each of the seven lanes makes.
const CALLS: u32 = 1_000;

/// A lane's pass at its end, and the longest time that a call took.
#[derive(Drop)]
struct Tally {
    pass: MemoryPass,
    longest: Duration,
}

fn now<R: Clock>(rt: &R) -> Option<Instant> {
    Instant::now(rt).ok()
}

// Calls and glances in turn.
fn call_often<R: Wait + Clock>(rt: &R, desk: &MemoryDesk, mut pass: MemoryPass, session: Session, ended: &AtomicU64) -> Tally {
    let mut longest = Duration::from_secs(0);
    for _ in 0..CALLS {
        let start = now(rt);
        let _given = desk.call(rt, &mut pass, Step::Ask(session, Question::Status));
        if let Some(start) = start && let Ok(time) = start.elapsed(rt) && time > longest {
            longest = time;
        }
        let _glance = desk.glance(&mut pass);
    }
    let _ = ended.fetch_add(1, Ordering::SeqCst);
    Tally { pass, longest }
}

// The seven lanes, each on a thread.
fn lanes<R: Threads + Wait + Clock + Sync>(rt: &R, desk: &MemoryDesk, mut pass: MemoryPass, first: u8, count: u8, ended: &AtomicU64) -> Tally {
    let half = count / 2;
    if half == 0 {
        return match Session::new(first) {
            Some(session) => call_often(rt, desk, pass, session, ended),
            None => Tally { pass, longest: Duration::from_secs(0) },
        };
    }
    let other = desk.seat(&mut pass);
    let (one, two) = join(
        rt,
        || lanes(rt, desk, pass, first, half, ended),
        || lanes(rt, desk, other, first + half, count - half, ended),
    );
    let Tally { mut pass, longest } = one;
    desk.join(&mut pass, two.pass);
    Tally { pass, longest: if two.longest > longest { two.longest } else { longest } }
}

fn message(alloc: Global) -> Option<Octets> {
    Octets::copy(alloc, &[0x5A; 1024]).ok()
}

fn encryption(alloc: Global) -> Option<Command> {
    Some(Command::Crypt(CryptRequest {
        algorithm: Algorithm::Cbc,
        direction: Direction::Encrypt,
        key: KeyName::read(b"K")?,
        start: Start::Zero,
        pad: 0,
        body: message(alloc)?,
    }))
}

fn key(alloc: Global) -> Option<Command> {
    Some(Command::ImportKey(ImportRequest {
        name: KeyName::read(b"K")?,
        source: ImportSource::Clear(Octets::copy(alloc, &[0x3B; 16]).ok()?),
        uses: 1,
        verify: Verify::Nothing,
    }))
}

// Keeps commands queued until the lanes have ended.
fn queue_often<R: Wait + Clock>(rt: &R, alloc: Global, desk: &MemoryDesk, mut pass: MemoryPass, session: Session, ended: &AtomicU64) -> MemoryPass {
    for _ in rt.forever() {
        if ended.load(Ordering::SeqCst) >= 7 {
            return pass;
        }
        if let Some(command) = encryption(alloc) {
            let _submitted = desk.submit(rt, &mut pass, session, 0, command);
        }
        thread::sleep(rt, Duration::from_micros(100));
    }
    unreachable!()
}

// Works until the lanes have ended.
fn work_often<R: Wait>(rt: &R, desk: &MemoryDesk, mut pass: MemoryPass, ended: &AtomicU64) -> MemoryPass {
    for _ in rt.forever() {
        if ended.load(Ordering::SeqCst) >= 7 {
            return pass;
        }
        let _worked = desk.work(rt, &mut pass);
    }
    unreachable!()
}

fn open_all<R: Wait>(rt: &R, alloc: Global, desk: &MemoryDesk, pass: &mut MemoryPass) -> Option<()> {
    let _booted = desk.call(rt, pass, Step::Boot);
    for number in 1..=8 {
        let session = Session::new(number)?;
        let _opened = desk.call(rt, pass, Step::Open(session));
    }
    let session = Session::new(8)?;
    let _submitted = desk.submit(rt, pass, session, 0, key(alloc)?);
    let _begun = desk.work(rt, pass);
    let _done = desk.work(rt, pass);
    Some(())
}

fn measure<R: Threads + Wait + Clock + Sync>(rt: &R, alloc: Global, with: bool) -> Option<(Duration, Duration, usize)> {
    let pad = Pad::new(alloc, StandardWork, [0; 32]).ok()?;
    let Ok((desk, mut pass)) = Desk::new(alloc, pad, MemDisk::new()) else {
        return None;
    };
    open_all(rt, alloc, &desk, &mut pass)?;
    let session = Session::new(8)?;
    let ended = AtomicU64::new(0);
    let queueing = desk.seat(&mut pass);
    let working = desk.seat(&mut pass);
    let start = now(rt)?;
    let (tally, others) = join(
        rt,
        || lanes(rt, &desk, pass, 1, 7, &ended),
        || join(
            rt,
            || if with { queue_often(rt, alloc, &desk, queueing, session, &ended) } else { queueing },
            || work_often(rt, &desk, working, &ended),
        ),
    );
    let time = start.elapsed(rt).ok()?;
    let Tally { mut pass, longest } = tally;
    desk.join(&mut pass, others.0);
    desk.join(&mut pass, others.1);
    let (_pad, _disk, history) = desk.close(rt, pass);
    let finished = history.items().iter().filter(|entry| matches!(entry.op, Step::Finish)).count();
    Some((time, longest, finished))
}

fn main(rt: HostRuntime) {
    let with = match env::args(&rt) {
        Ok(words) => words.count() > 1,
        Err(_) => false,
    };
    if let Some((time, longest, finished)) = measure(&rt, rt.alloc(), with) {
        let millis = time.as_millis().max(1);
        let calls = u128::from(CALLS) * 7 * 1000 / millis;
        let crypts = (finished as u128) * 1000 / millis;
        let _ = println!(rt; "{calls} calls and {calls} glances a second, the longest call {} microseconds, {crypts} commands a second", longest.as_micros());
    }
}
CODE
cd "$folder/crates/crypt_lanes"
for _ in $(seq "$RUNS"); do
    echo "with commands: $(rt try -- with | tail -1)"
done
for _ in $(seq "$RUNS"); do
    echo "without: $(rt try | tail -1)"
done
