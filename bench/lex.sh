#!/bin/sh
# How long `lex` takes for a file of at most 262,144 bytes, 20 times, for three texts.
# Makes a program in a folder of its own, and proves and runs it there: `rt` must be on the path.
set -e
top=$(cd "$(dirname "$0")/.." && pwd)
work=$(mktemp -d)
trap 'rm -rf "$work"' EXIT
mkdir -p "$work/crates/bench/src" "$work/crates/bench/specs"
cp -r "$top/crates/kt_lex" "$work/crates/"
printf 'kt_lex: thiserror\nbench: kt_lex\n' > "$work/crates.txt"
cat > "$work/crates/bench/src/main.rt" <<'PROGRAM'
#![tactic(auto)]

use kt_lex::lex;
use std::io;
use std::time::Instant;

const TEXTS: [(&[u8], usize); 3] = [
    (b"while (p && p->key != 0x1fL) { p = p->next; printf(\"%d\\n\", 'a'); } /* to the end */\n", 3084),
    (b"+ ", 131072),
    (b"\"a\" ", 65536),
];

fn measure(rt: &HostRuntime, file: &[u8]) -> io::Result<()> {
    let bytes = file.len();
    if bytes > 262144 {
        return Ok(());
    }
    let start = Instant::now(rt)?;
    let mut tokens = 0;
    for _ in 0..20 {
        if let Ok(read) = lex(rt.alloc(), file) {
            tokens = read.len();
        }
    }
    let time = start.elapsed(rt)?.as_micros();
    println!(rt; "{bytes} bytes, {tokens} tokens: {time} microseconds for 20 runs")
}

fn main(rt: HostRuntime) -> io::Result<()> {
    for (text, count) in TEXTS {
        let mut file = Vec::new(rt.alloc());
        for _ in 0..count {
            file.extend_from_slice(text)?;
        }
        measure(&rt, &file)?;
    }
    Ok(())
}
PROGRAM
cd "$work/crates/bench"
rt run
