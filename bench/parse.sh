#!/bin/sh
# How long `parse` takes for the tokens of a file of at most 262,144 bytes, 20 times, for three texts.
# Makes a program in a folder of its own, and proves and runs it there: `rt` must be on the path.
set -e
top=$(cd "$(dirname "$0")/.." && pwd)
work=$(mktemp -d)
trap 'rm -rf "$work"' EXIT
mkdir -p "$work/crates/bench/src" "$work/crates/bench/specs"
for crate in kt_lex kt_grammar kt_syntax; do cp -r "$top/crates/$crate" "$work/crates/"; done
printf 'kt_lex: thiserror\nkt_grammar: kt_lex sqlite_items\nkt_syntax: kt_grammar kt_lex sqlite_items thiserror\nbench: kt_lex kt_syntax\n' > "$work/crates.txt"
cat > "$work/crates/bench/src/main.rt" <<'PROGRAM'
#![tactic(auto)]

use kt_lex::lex;
use kt_syntax::parse;
use std::io;
use std::time::Instant;

const TEXTS: [(&[u8], usize); 3] = [
    (b"int f(int n) { while (n < 5) { n = n + g(n, 'a') * 2; if (n) { n--; } else return n; } }\n", 2900),
    (b"int a = 1, *b;\n", 17400),
    (b"struct s { int a; struct s *b; };\n", 7700),
];

fn measure(rt: &HostRuntime, file: &[u8]) -> io::Result<()> {
    let bytes = file.len();
    if bytes > 262144 {
        return Ok(());
    }
    let Ok(tokens) = lex(rt.alloc(), file) else {
        return Ok(());
    };
    let start = Instant::now(rt)?;
    let mut items = 0;
    for _ in 0..20 {
        if let Ok(tree) = parse(rt.alloc(), &tokens, file) {
            items = tree.items.len();
        }
    }
    let time = start.elapsed(rt)?.as_micros();
    println!(rt; "{bytes} bytes, {items} declarations: {time} microseconds for 20 runs")
}

fn main(rt: HostRuntime) -> io::Result<()> {
    for (text, count) in TEXTS {
        let mut file = Vec::new(rt.alloc());
        for _ in 0..count {
            file.extend_from_slice(text)?;
        }
        measure(&rt, &file)?;
    }
    Ok(())
}
PROGRAM
cd "$work/crates/bench"
rt run
