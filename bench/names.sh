#!/bin/bash
# How long it takes to put 7,700 names into a table, as many of 32 bytes as a text of the greatest length has: names
# that someone made to have one hash, beside names at random. `by text` is as ckc_resolve has it, `by bytes` as ckc_asm.
. "$(dirname "$0")/workspace.sh"
program put_names indexmap <<'PROGRAM'
#![tactic(auto)]

use indexmap::IndexMap;
use std::rt::Runtime;
use std::time::Instant;
use std::{env, fs, io};

fn main(rt: HostRuntime) -> io::Result<()> {
    for word in env::args(&rt)?.skip(1) {
        let text = fs::read_to_string(&rt, word.as_str())?;
        slices(&rt, text.as_str())?;
        texts(&rt, text.as_str())?;
    }
    Ok(())
}

fn slices(rt: &(impl Runtime + AllocGlobal), text: &str) -> io::Result<()> {
    let start = Instant::now(rt)?;
    let mut map: IndexMap<&[u8], u32> = IndexMap::new(rt.alloc());
    for line in text.lines() {
        if map.get(&line.as_bytes()).is_none() {
            map.insert(line.as_bytes(), 1)?;
        }
    }
    let time = start.elapsed(rt)?.as_micros();
    println!(rt; "bytes {time}")
}

fn texts(rt: &(impl Runtime + AllocGlobal), text: &str) -> io::Result<()> {
    let start = Instant::now(rt)?;
    let mut map: IndexMap<&str, u32> = IndexMap::new(rt.alloc());
    for line in text.lines() {
        if map.get(&line).is_none() {
            map.insert(line, 1)?;
        }
    }
    let time = start.elapsed(rt)?.as_micros();
    println!(rt; "text {time}")
}
PROGRAM
gcc -O2 -o "$work/names" "$top/bench/names.c"

# The milliseconds for names of a kind, by a kind of key.
measure() {
  "$work/names" "$1" > "$work/list"
  row "7,700 names, $3" "$("$work/crates/put_names/out/put_names" "$work/list" | awk -v key="$2" '$1 == key { printf "%.1f", $2 / 1000 }')" ms
}

measure random text 'at random, by text'
measure text text 'of one hash, by text'
measure random bytes 'at random, by bytes'
measure bytes bytes 'of one group of the table, by bytes'
