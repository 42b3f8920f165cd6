#!/usr/bin/env bash
# How fast the ciphers, modes and authentication codes are, as a ratio to what OpenSSL does with as many blocks. No clause
# tells the speed, so this stands outside the gate. Each program is a crate of its own in a folder that is thrown away.
#
# Both sides count processor time. They take turns, RUNS times (7), and the ratio is that of the medians. Behind it stand the
# blocks a second of each, and in brackets the slowest and the fastest run.
#
# OpenSSL's ciphers of DES want its provider `legacy` (Debian: apt-get install openssl).
set -euo pipefail
cd "$(dirname "$0")/.."
RUNS=${RUNS:-7}

folder=$(mktemp -d)
trap 'rm -rf "$folder"' EXIT
mkdir "$folder/crates"
cp -r crates/pad_words crates/des_core crates/cbc_mac "$folder/crates/"
grep -E '^(pad_words|des_core|cbc_mac):' crates.txt > "$folder/crates.txt"

# build NAME TIMES KEY STEP: a program that makes KEY and does STEP so many TIMES, each over 1024 blocks
build() {
    mkdir -p "$folder/crates/$1/src"
    echo "$1: pad_words des_core cbc_mac" >> "$folder/crates.txt"
    cat > "$folder/crates/$1/src/main.rt" <<END
//! Enciphers blocks, each from what came out before.
#![tactic(auto)]

use cbc_mac::{Mac, MacKind, cbc, ecb};
use des_core::{BadLength, Des, PermutedBlock, Tdea};
use pad_words::{Block, Direction};

fn main(rt: HostRuntime) -> Result<(), BadLength> {
    let $3;
    let mut block = PermutedBlock::new(Block(*b"8 bytes."));
    let mut bytes = [7u8; 8192];
    for _ in 0..$2u32 {
        $4;
    }
    let _ = println!(rt; "{:x} {}", u64::from_be_bytes(block.block().0), bytes[8191]);
    Ok(())
}
END
    (cd "$folder/crates/$1" && rt run > "$folder/log" 2>&1) || { cat "$folder/log"; exit 1; }
    echo "$2" > "$folder/crates/$1/times"
}

# by_us NAME: its blocks a second
by_us() {
    local TIMEFORMAT=%U
    { time "$folder/crates/$1/out/$1" > /dev/null; } 2> "$folder/time"
    awk -v blocks="$(($(cat "$folder/crates/$1/times") * 1024))" '{ printf "%d\n", blocks / $1 }' "$folder/time"
}

# by_openssl CIPHER [-decrypt]: its blocks a second
by_openssl() {
    openssl speed -seconds 1 -bytes 8192 -provider legacy -provider default -evp "$1" ${2:-} 2> /dev/null |
        awk '/^DES-/ { sub("k", "", $2); printf "%d\n", $2 * 1000 / 8 }'
}

# compare TEXT NAME CIPHER [-decrypt]
compare() {
    for _ in $(seq "$RUNS"); do
        by_us "$2" >> "$folder/ours.$2"
        by_openssl "$3" ${4:-} >> "$folder/theirs.$2"
    done
    paste <(sort -n "$folder/ours.$2") <(sort -n "$folder/theirs.$2") |
        awk -v text="$1" -v cipher="$3" '
            { ours[NR] = $1; theirs[NR] = $2 }
            END {
                middle = int((NR + 1) / 2)
                printf "%-44s %4.2f of %-14s", text, ours[middle] / theirs[middle], cipher
                printf "%9d (%d to %d)", ours[middle], ours[1], ours[NR]
                printf " %9d (%d to %d)\n", theirs[middle], theirs[1], theirs[NR]
            }'
}

des='key = Des::new(Block(*b"measures"))'
one='key = Tdea::new(b"measures")?'
three='key = Tdea::new(b"three keys, of 8 a piece")?'
build rounds 1000 "$des" 'for _ in 0..1024u32 { block = key.encrypt_permuted(&block); }'
build one_chain 1000 "$one" 'cbc(&key, Direction::Encrypt, block.block(), &mut bytes)'
build one_book 1000 "$one" 'ecb(&key, Direction::Encrypt, &mut bytes)'
build one_back 1000 "$one" 'cbc(&key, Direction::Decrypt, block.block(), &mut bytes)'
build three_chain 400 "$three" 'cbc(&key, Direction::Encrypt, block.block(), &mut bytes)'
build three_book 400 "$three" 'ecb(&key, Direction::Encrypt, &mut bytes)'
build three_back 400 "$three" 'cbc(&key, Direction::Decrypt, block.block(), &mut bytes)'
build code 1000 'mut mac = Mac::new(MacKind::Single, b"measures")?' 'mac.feed(&bytes)'

compare 'DES, one block after another' rounds des-cbc
compare 'code by one key, fed 8 KiB at a time' code des-cbc
compare 'CBC under a key of 8 bytes' one_chain des-cbc
compare 'CBC under 24 bytes' three_chain des-ede3-cbc
compare 'ECB under 8 bytes' one_book des-ecb
compare 'CBC decryption under 8 bytes' one_back des-ecb
compare 'ECB under 24 bytes' three_book des-ede3
compare 'CBC decryption under 24 bytes' three_back des-ede3-cbc -decrypt
