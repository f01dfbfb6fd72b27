#!/bin/bash
# How fast the lexer reads: a source file of 262,144 bytes, read 400 times.
. "$(dirname "$0")/workspace.sh"
program lex_times ckc_lexer > "$work/told" <<'PROGRAM'
#![tactic(auto)]

use ckc_lexer::lex;
use std::io;
use std::time::Instant;

const SAMPLE: &[u8] = b"#include <stdchecked.h>\n/* counts words,\n   and prints them */\nint same(ptr<struct word> w, int n) {\n  int i;\n  if (w->len != n) return 0;   // other lengths differ\n  for (i = 0; i < n; i = i + 1)\n    if (w->text[i] != line[i]) return 0;\n  return 1;\n}\nchar *name = \"a string\\n\";\nint main(void) {\n  int c = 'x';\n  while (c != EOF && c >= 0x20) {\n    putchar(48 + value % 10);\n    c = getchar();\n  }\n  return 0;\n}\n";

const SIZE: usize = 262144;
const TURNS: u32 = 400;

fn main(rt: HostRuntime) -> io::Result<()> {
    let whole = SIZE / SAMPLE.len() * SAMPLE.len();
    let mut text = Vec::new(rt.alloc());
    for k in 0..SIZE {
        let b = if k < whole { SAMPLE[k % SAMPLE.len()] } else { b'\n' };
        text.push(b)?;
    }
    let mut tokens = 0u64;
    let mut refused = 0u32;
    let start = Instant::now(&rt)?;
    for _ in 0..TURNS {
        match lex(rt.alloc(), text.as_slice()) {
            Ok(found) => tokens = tokens.wrapping_add(found.len() as u64),
            Err(_) => refused = refused.saturating_add(1),
        }
    }
    let nanos = start.elapsed(&rt)?.as_nanos();
    println!(rt; "bytes {SIZE} turns {TURNS} tokens {tokens} refused {refused} nanoseconds {nanos}")
}
PROGRAM
awk '/^bytes/ { printf "lexer\t%.0f\tMB/s\n", $2 * $4 * 1000 / $NF }' "$work/told"
