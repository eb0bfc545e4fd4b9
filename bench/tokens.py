#!/usr/bin/env python3
"""Times ax_lex on texts of 1, 2, 4, 8 and 16 MiB.

Run by hand at the top of the repository: bench/tokens.py. Builds a program over ax_lex in a folder
of its own, which is proved first, and prints the seconds and the peak memory of each text.
"""
from timing import measure

PROGRAM = r"""
//! Tokenises a line of 64 bytes that stands as often as the program's word says.
#![tactic(auto)]

use ax_lex::tokens;
use std::alloc::{AllocError, Global};
use std::env;
use std::process::ExitCode;

const LINE: &str = "  %\"a b\" = atomicrmw add ptr @x, i64 -1 seq_cst, align 8 ; note\n";

fn count(alloc: Global, lines: u32) -> Result<usize, AllocError> {
    let mut text = String::new(alloc);
    for _ in 0..lines {
        text.push_str(LINE)?;
    }
    match tokens(alloc, text.as_bytes()) {
        Ok(found) => Ok(found.len()),
        Err(_) => Ok(0),
    }
}

fn status_of(alloc: Global, lines: u32) -> u8 {
    match count(alloc, lines) {
        Ok(found) if found / 14 == lines as usize => 0,
        Ok(_) => 1,
        Err(_) => 71,
    }
}
"""

measure("lex_bench", PROGRAM, ["ax_lex"], [("%d MiB" % size, size * 2**14) for size in [1, 2, 4, 8, 16]])
