#!/usr/bin/env python3
"""Times ax_read on module texts of 1, 2 and 4 MiB, and on four hostile texts of 4 MiB.

Run by hand at the top of the repository: bench/reading.py. Builds a program over ax_read in a
folder of its own, which is proved first, and prints the seconds and the peak memory of each text.
"""
from timing import measure

PROGRAM = r"""
//! Reads a module whose function has as many additions as the program's word says, each of the
//! one before it; with a word from 1,000,000 on, 4 MiB of line feeds, commas, digits or one name.
#![tactic(auto)]

use ax_read::read;
use std::alloc::{AllocError, Global};
use std::env;
use std::fmt::Write;
use std::process::ExitCode;

fn text_of(alloc: Global, lines: u32) -> Result<String, AllocError> {
    let mut text = String::new(alloc);
    text.push_str("define void @f() {\n  %before0 = add i64 1, 1\n")?;
    for i in 1..lines {
        let earlier = i - 1;
        write!(text, "  %before{i} = add nuw nsw i64 %before{earlier}, 123 ; note\n")?;
    }
    text.push_str("  ret void\n}\n")?;
    Ok(text)
}

/// 4 MiB of one byte, behind what it goes on with.
fn hostile(alloc: Global, number: u32) -> Result<String, AllocError> {
    let mut text = String::new(alloc);
    let piece = match number {
        1_000_000 => "\n",
        1_000_001 => ",",
        1_000_002 => "7",
        _ => "n",
    };
    if number > 1_000_002 {
        text.push_str("@")?;
    }
    for _ in 0..4_194_300 {
        text.push_str(piece)?;
    }
    Ok(text)
}

/// Whether the answer is the right one: line feeds alone are a module, the others are none.
fn is_judged(alloc: Global, number: u32) -> Result<bool, AllocError> {
    let text = hostile(alloc, number)?;
    let bytes = text.as_bytes();
    if bytes.len() > 5_000_000 {
        return Ok(false);
    }
    Ok(read(alloc, bytes).is_ok() == (number == 1_000_000))
}

fn is_read(alloc: Global, lines: u32) -> Result<bool, AllocError> {
    if lines >= 1_000_000 {
        return is_judged(alloc, lines);
    }
    let text = text_of(alloc, lines)?;
    let bytes = text.as_bytes();
    if bytes.len() > 5_000_000 {
        return Ok(false);
    }
    Ok(read(alloc, bytes).is_ok())
}

fn status_of(alloc: Global, lines: u32) -> u8 {
    match is_read(alloc, lines) {
        Ok(true) => 0,
        Ok(false) => 1,
        Err(_) => 71,
    }
}
"""

CRATES = ["ax_words", "ax_module", "ax_lex", "ax_symbols", "ax_lines", "ax_scope", "ax_read"]

SIZES = [("%d MiB" % size, size * 17500) for size in [1, 2, 4]]

HOSTILE = [("line feeds", 1000000), ("commas", 1000001), ("digits", 1000002), ("one name", 1000003)]

measure("read_bench", PROGRAM, CRATES, SIZES + HOSTILE)
