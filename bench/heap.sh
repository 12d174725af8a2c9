#!/bin/sh
# How long the heap takes: a million allocations and releases of one node, and a list of a million nodes that is built and
# walked by loads. Beside that it keeps 16 bytes for each address that it gave out, here 32 million bytes for the two.
# Makes a program in a folder of its own, and proves and runs it there: `rt` must be on the path.
set -e
top=$(cd "$(dirname "$0")/.." && pwd)
work=$(mktemp -d)
trap 'rm -rf "$work"' EXIT
mkdir -p "$work/crates/bench/src" "$work/crates/bench/specs"
for crate in kt_types kt_mem kt_heap; do cp -r "$top/crates/$crate" "$work/crates/"; done
printf 'kt_types: indexmap thiserror\nkt_mem: kt_types\nkt_heap: kt_mem kt_types slab\nbench: kt_heap kt_mem kt_types slab\n' > "$work/crates.txt"
cat > "$work/crates/bench/src/main.rt" <<'PROGRAM'
#![tactic(auto)]

use kt_heap::Heap;
use kt_mem::{Name, Value};
use kt_types::Ty;
use std::io;
use std::time::Instant;

const NODES: u32 = 1_000_000;

/// The name of a new node, of a number and a pointer.
fn node(heap: &mut Heap) -> Option<Name> {
    if heap.next() >= 9_223_372_036_854_775_807 || heap.given() >= 4_294_967_296 {
        return None;
    }
    match heap.alloc(4, &[Ty::Int, Ty::Ptr(4)], 1, false) {
        Ok(a) => Some(Name::Heap(a)),
        Err(_) => None,
    }
}

/// Makes and releases nodes one after another; how many.
fn one_by_one(heap: &mut Heap) -> u32 {
    let mut count: u32 = 0;
    for _ in 0..NODES {
        if let Some(name) = node(heap) {
            if heap.free(Value::Ptr(name, 0)).is_ok() {
                count = count.saturating_add(1);
            }
        }
    }
    count
}

/// A list of nodes.
fn list(heap: &mut Heap) -> Value {
    let mut first = Value::Null;
    for _ in 0..NODES {
        if let Some(name) = node(heap) {
            if heap.store(Value::Ptr(name, 1), Ty::Ptr(4), first).is_ok() {
                first = Value::Ptr(name, 0);
            }
        }
    }
    first
}

/// Walks a list; how many nodes it has.
fn walk(heap: &Heap, first: Value) -> u32 {
    let mut at = first;
    let mut count: u32 = 0;
    for _ in 0..NODES {
        if let Value::Ptr(name, _) = at {
            if let Ok(next) = heap.load(Value::Ptr(name, 1), Ty::Ptr(4)) {
                at = next;
                count = count.saturating_add(1);
            }
        }
    }
    count
}

fn main(rt: HostRuntime) -> io::Result<()> {
    let mut heap = Heap::new(rt.alloc(), 0);
    let start = Instant::now(&rt)?;
    let count = one_by_one(&mut heap);
    let time = start.elapsed(&rt)?.as_micros();
    let slots = heap.slots();
    println!(rt; "{count} nodes made and released, {slots} key: {time} microseconds")?;
    let start = Instant::now(&rt)?;
    let first = list(&mut heap);
    let time = start.elapsed(&rt)?.as_micros();
    let slots = heap.slots();
    println!(rt; "a list with {slots} keys: {time} microseconds")?;
    let start = Instant::now(&rt)?;
    let count = walk(&heap, first);
    let time = start.elapsed(&rt)?.as_micros();
    println!(rt; "{count} nodes walked: {time} microseconds")
}
PROGRAM
cd "$work/crates/bench"
rt run
