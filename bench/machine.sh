#!/bin/bash
# How fast the machine runs, beside a plain interpreter in C (machine/interpreter.c, gcc -O2): a tight loop; copies and
# strides; a program like CoreMark, compiled by gcc -O2. Each takes user time, with the start of its process. Then the
# start of a run: a program that ends at once, 20 times, user and system time.
. "$(dirname "$0")/workspace.sh"
program run_image ckc_asm ckc_image ckc_machine ckc_outside <<'PROGRAM'
#![tactic(auto)]

use ckc_asm::read_asm;
use ckc_image::{View, write};
use ckc_machine::{Machine, Observed};
use ckc_outside::{MemSink, MemSource};
use std::{env, fs, io};

/// Assembles the first file into the second and runs that.
fn main(rt: HostRuntime) -> io::Result<()> {
    let mut words = Vec::new(rt.alloc());
    for word in env::args(&rt)?.skip(1) {
        words.push(word)?;
    }
    let [text, image] = words.as_slice() else {
        return Ok(());
    };
    let bytes = fs::read(&rt, text.as_str())?;
    let Ok(parts) = read_asm(rt.alloc(), &bytes) else {
        println!(rt; "no assembly")?;
        return Ok(());
    };
    let image_bytes = write(rt.alloc(), &parts)?;
    fs::write(&rt, image.as_str(), image_bytes.as_slice())?;
    let Ok(view) = View::read(image_bytes.as_slice()) else {
        return Ok(());
    };
    let mut machine = Machine::load(rt.alloc(), view)?;
    let mut input = MemSource::new(&[], &[]);
    let mut room = [0; 1];
    let mut out = MemSink::new(&mut room, &[]);
    let answer = machine.run(10_000_000_000, &mut input, &mut out);
    println!(rt; "ended: {}", matches!(answer, Observed::Ended(_)))?;
    Ok(())
}
PROGRAM
gcc -O2 -o "$work/interpreter" "$top/bench/machine/interpreter.c"

# The user seconds of a command, whose output goes to `said`.
TIMEFORMAT=%U
seconds() { { time "$@" > "$work/said"; } 2>&1; }
ours=$work/crates/run_image/out/run_image
asm=$top/bench/machine

measure() { # program name
  local mine peer count
  mine=$(seconds "$ours" "$asm/$1.s" "$work/image")
  grep -q '^ended: true' "$work/said" || { cat "$work/said" >&2; return 1; }
  peer=$(seconds "$work/interpreter" "$work/image")
  count=$(awk '{ print $1 }' "$work/said")
  row "simulator, $2" "$(awk "BEGIN { printf \"%.0f beside %.0f\", $count / 1000000 / $mine, $count / 1000000 / $peer }")" "million instructions/s, ours beside C"
}

measure loop 'loop'
measure copies 'copies and strides'
measure mixed 'like CoreMark'

repeat() { for ((k = 0; k < 20; k++)); do "$@" > "$work/said"; done; }
average() { { time repeat "$@"; } 2>&1 | awk '{ printf "%.1f", ($1 + $2) * 50 }'; }
TIMEFORMAT='%U %S'
mine=$(average "$ours" "$asm/end.s" "$work/image")
row "simulator, start of a run" "$mine beside $(average "$work/interpreter" "$work/image")" "ms, ours beside C"
