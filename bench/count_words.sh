#!/bin/bash
# Decodes every word with the low seven bits of one of the instruction table's eleven opcodes, 11 * 2^25 words in all,
# and says how many are instructions and how many words a second that is.
#
# By hand: LUI, AUIPC and JAL have 2^25 words each; JALR, 6 branches, 5 loads, 3 stores and 6 operations with an
# immediate 2^22 each; 3 shifts by an immediate and 18 operations on registers 2^15 each; FENCE 2^8; ECALL and
# EBREAK one each. 3 * 2^25 + 21 * 2^22 + 21 * 2^15 + 2^8 + 2 = 189432066.
. "$(dirname "$0")/workspace.sh"
program count_words ckc_rv > "$work/told" <<'PROGRAM'
#![tactic(auto)]

use ckc_rv::decode;
use std::io;
use std::time::Instant;

const OPCODES: [u32; 11] = [0x03, 0x0F, 0x13, 0x17, 0x23, 0x33, 0x37, 0x63, 0x67, 0x6F, 0x73];

fn main(rt: HostRuntime) -> io::Result<()> {
    let start = Instant::now(&rt)?;
    let mut count: u32 = 0;
    for opcode in OPCODES {
        for upper in 0..0x200_0000u32 {
            if decode((upper << 7) ^ opcode).is_some() {
                count = count.wrapping_add(1);
            }
        }
    }
    let time = start.elapsed(&rt)?.as_millis();
    println!(rt; "{count} instructions, {time} ms")?;
    Ok(())
}
PROGRAM
awk '/instructions/ { printf "words decoded (%d are instructions)\t%.0f\tmillion words/s\n", $1, 11 * 2 ^ 25 / 1000 / $3 }' "$work/told"
