#!/bin/bash
# How fast the parser reads: the tokens of source files of 131,072 and 262,144 bytes, each parsed 40 times. The time
# is to grow as the size does.
. "$(dirname "$0")/workspace.sh"
program parse_times ckc_base ckc_lexer ckc_parser > "$work/told" <<'PROGRAM'
#![tactic(auto)]

use ckc_base::Pos;
use ckc_lexer::lex;
use ckc_parser::parse;
use std::io;
use std::time::Instant;

const SAMPLE: &[u8] = b"int same(_Ptr<struct word> w, int n) {\n  int i;\n  if (w->len != n) return 0;\n  for (i = 0; i < n; i = i + 1)\n    if (w->text[i] != line[i]) return 0;\n  return 1;\n}\nint main(void) {\n  int c = 'x';\n  while (c != EOF && c >= 0x20) {\n    putchar(48 + value % 10);\n    c = getchar();\n  }\n  return 0;\n}\n";

const TURNS: u32 = 40;

fn measure(rt: HostRuntime, size: usize) -> io::Result<()> {
    let whole = size / SAMPLE.len() * SAMPLE.len();
    let mut text = Vec::new(rt.alloc());
    for k in 0..size {
        let b = if k < whole { SAMPLE[k % SAMPLE.len()] } else { b'\n' };
        text.push(b)?;
    }
    let end = Pos { line: 1, col: 1 };
    let mut parsed = 0u32;
    let mut count = 0u64;
    match lex(rt.alloc(), text.as_slice()) {
        Ok(tokens) => {
            count = tokens.len() as u64;
            let start = Instant::now(&rt)?;
            for _ in 0..TURNS {
                if parse(rt.alloc(), tokens.as_slice(), end).is_ok() {
                    parsed = parsed.saturating_add(1);
                }
            }
            let nanos = start.elapsed(&rt)?.as_nanos();
            println!(rt; "bytes {size} tokens {count} parsed {parsed} of {TURNS} nanoseconds {nanos}")?;
        }
        Err(_) => {}
    }
    Ok(())
}

fn main(rt: HostRuntime) -> io::Result<()> {
    measure(rt, 131_072)?;
    measure(rt, 262_144)
}
PROGRAM
awk '/^bytes/ { printf "parser, %d bytes\t%.0f\tMB/s\n", $2, $2 * $8 * 1000 / $NF }' "$work/told"
