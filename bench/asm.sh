#!/bin/bash
# How fast assembly is read and listed: texts of 131,072 and 262,144 bytes, each read 100 times, and images of 2 MiB and
# 4 MiB of code, each listed once. The times are to grow as the sizes do.
. "$(dirname "$0")/workspace.sh"
program asm_times ckc_asm ckc_image ckc_asm_listing ckc_outside > "$work/told" <<'PROGRAM'
#![tactic(auto)]

use ckc_asm::read_asm;
use ckc_image::View;
use ckc_asm_listing::list;
use ckc_outside::MemSink;
use std::io;
use std::time::Instant;

/// Lines of 64 bytes together.
const SAMPLE: &[u8; 64] = b"beq x10, x11, 16\naddi x10, x11, -5 # to\nsw x10, 8(x2)\n\n.data 7f\n";

/// addi x10, x11, -5 and a word outside the table.
const WORDS: [u32; 2] = [0xFFB5_8513, 0xFFFF_FFFF];

fn read_times(rt: &HostRuntime, size: usize) -> io::Result<()> {
    let mut text = Vec::new(rt.alloc());
    for k in 0..size {
        text.push(SAMPLE[k % 64])?;
    }
    let mut refused = 0u32;
    let start = Instant::now(rt)?;
    for _ in 0..100 {
        if read_asm(rt.alloc(), text.as_slice()).is_err() {
            refused = refused.saturating_add(1);
        }
    }
    let time = start.elapsed(rt)?.as_millis();
    println!(rt; "read {size} bytes 100 times: {time} ms, {refused} refused")
}

fn list_time(rt: &HostRuntime, words: u32) -> io::Result<()> {
    let mut bytes = Vec::new(rt.alloc());
    for word in [0x4D49_4343, 1, 0x1000, words.wrapping_mul(4), 0] {
        bytes.extend_from_slice(&u32::to_le_bytes(word))?;
    }
    for k in 0..words {
        bytes.extend_from_slice(&WORDS[(k % 2) as usize].to_le_bytes())?;
    }
    let mut room = vec![in rt.alloc(); 0u8; 0x200_0000]?;
    match View::read(&bytes) {
        Ok(view) => {
            let mut out = MemSink::new(&mut room, &[]);
            let start = Instant::now(rt)?;
            let failed = list(view.entry, view.code, view.initial, &mut out).is_err();
            let time = start.elapsed(rt)?.as_millis();
            let len = out.written().len();
            println!(rt; "listed {words} words: {time} ms, {len} bytes, failed: {failed}")
        }
        Err(_) => println!(rt; "no image"),
    }
}

fn main(rt: HostRuntime) -> io::Result<()> {
    read_times(&rt, 131072)?;
    read_times(&rt, 262144)?;
    list_time(&rt, 524288)?;
    list_time(&rt, 1048576)
}
PROGRAM
awk '/^read/ { printf "assembler, %d bytes\t%.0f\tMB/s\n", $2, $2 * 100 / 1000 / $6 } /^listed/ { printf "listing, %d words\t%.0f\tmillion words/s\n", $2, $2 / 1000 / $4 }' "$work/told"
