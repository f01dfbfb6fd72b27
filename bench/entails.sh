#!/bin/bash
# How long a query of `entails` takes: 1,000 variables and 2,000 facts, of three kinds. Ranges are two facts for each
# variable, as a compiler always has them. Random facts lead from anywhere to anywhere. In a path each fact leads to the
# next variable, in the order in which each round of the search finds but one sum more: the worst that can be.
. "$(dirname "$0")/workspace.sh"
program entails_times ckc_base ckc_linear > "$work/told" <<'PROGRAM'
#![tactic(auto)]
ghost use Rattle.std.specs.Prelude.{◌<◌};

use ckc_base::Seq;
use ckc_linear::{Fact, Facts, add, entails};
use std::alloc::{AllocError, Global};
use std::io;
use std::time::Instant;

const VARS: u32 = 1000;

fn put(facts: &mut Facts, x: u32, y: u32, c: u32) -> Result<(), AllocError> {
    let c = i64::from(c);
    if x < facts.vars && y < facts.vars && c <= 1000 {
        add(facts, Fact { x, y, c })?;
    }
    Ok(())
}

fn ask(facts: &Facts, x: u32, y: u32, c: u32, row: &mut [i64]) -> bool {
    let c = i64::from(c);
    if x < facts.vars && y < facts.vars && c <= 10_000 && row.len() == 2 * facts.vars as usize {
        return entails(facts, x, y, c, row);
    }
    false
}

fn next(state: &mut u64, limit: u32) -> u32
    requires { 0 < limit }
{
    *state = state.wrapping_mul(6_364_136_223_846_793_005).wrapping_add(1_442_695_040_888_963_407);
    (*state >> 33) as u32 % limit
}

fn facts_of(alloc: Global, kind: &str) -> Result<Facts, AllocError> {
    let mut facts = Facts { vars: VARS, list: Seq::new(alloc) };
    let mut state = 1;
    for k in 0..VARS {
        match kind {
            "ranges" => {
                put(&mut facts, k, 0, 255)?;
                put(&mut facts, 0, k, 0)?;
            }
            "random" => {
                for _ in 0..2u32 {
                    let x = next(&mut state, VARS);
                    let y = next(&mut state, VARS);
                    put(&mut facts, x, y, k)?;
                }
            }
            _ => {
                put(&mut facts, k, k + 1, 1)?;
                put(&mut facts, k, k, 0)?;
            }
        }
    }
    Ok(facts)
}

fn main(rt: HostRuntime) -> io::Result<()> {
    let mut row = Vec::new(rt.alloc());
    for _ in 0..2 * VARS {
        row.push(0)?;
    }
    for (kind, turns) in [("ranges", 100_000u32), ("random", 10_000), ("path", 200)] {
        let facts = facts_of(rt.alloc(), kind)?;
        let mut state = 7;
        let mut yes = 0u32;
        let start = Instant::now(&rt)?;
        for _ in 0..turns {
            let x = next(&mut state, VARS);
            let y = next(&mut state, VARS);
            let c = next(&mut state, 2000);
            if ask(&facts, x, y, c, row.as_mut_slice()) {
                yes = yes.wrapping_add(1);
            }
        }
        let nanos = start.elapsed(&rt)?.as_nanos();
        let count = facts.list.len();
        println!(rt; "{kind}: {count} facts, {turns} queries, {yes} yes, {nanos} ns")?;
    }
    Ok(())
}
PROGRAM
awk '/ queries, / { printf "entails, %s\t%.0f\tns a query\n", substr($1, 1, length($1) - 1), $8 / $4 }' "$work/told"
