#!/usr/bin/env python3
"""Times the source machine on 1,000,000 events of a module with 256 globals, on x86-64.

Run by hand at the top of the repository: bench/source.py. Builds a program over ax_read, ax_check
and ax_source in a folder of its own, which is proved first, and prints the seconds and the peak
memory of each count of events, the reading and the check of the module included.
"""
from timing import measure

PROGRAM = r"""
//! Reads and checks a module with 256 globals, and runs as many events of its two functions, by
//! turns, as the program's word says. The first adds to each global in a loop. The second stores to
//! each global and loads from it, in a loop: its stores wait, and its loads find them.
#![tactic(auto)]

ghost use Rattle.std.specs.Prelude.{◌≤◌, length};
ghost use Rattle.ax_source.specs.MachineSteps.{Stays};

use ax_check::check;
use ax_read::read;
use ax_source::{Machine, SourceEvent};
use ax_target::Target;
use std::alloc::{AllocError, Global};
use std::env;
use std::fmt::Write;
use std::process::ExitCode;

const GLOBALS: u32 = 256;

fn push_adding(text: &mut String) -> Result<(), AllocError> {
    text.push_str("define void @add() {\nentry:\n  br label %loop\nloop:\n")?;
    for g in 0..GLOBALS {
        write!(text, "  %r{g} = atomicrmw add ptr @g{g}, i64 1 seq_cst, align 8\n")?;
    }
    text.push_str("  br label %loop\n}\n")
}

fn push_storing(text: &mut String) -> Result<(), AllocError> {
    text.push_str("define void @store() {\nentry:\n  br label %loop\nloop:\n")?;
    for g in 0..GLOBALS {
        write!(text, "  store atomic i64 7, ptr @g{g} monotonic, align 8\n")?;
        write!(text, "  %r{g} = load atomic i64, ptr @g{g} monotonic, align 8\n")?;
    }
    text.push_str("  br label %loop\n}\n")
}

fn text_of(alloc: Global) -> Result<String, AllocError> {
    let mut text = String::new(alloc);
    for g in 0..GLOBALS {
        write!(text, "@g{g} = global i64 0, align 8\n")?;
    }
    push_adding(&mut text)?;
    push_storing(&mut text)?;
    Ok(text)
}

fn play(machine: &mut Machine)
    requires { 2 ≤ length machine.old.processors }
    ensures { Stays machine.old machine.new }
{
    while machine.room() > 1 {
        machine.step(SourceEvent::Act(0));
        machine.step(SourceEvent::Act(1));
    }
}

/// The number of global 0 after so many events, if the module is accepted and there is memory.
fn number_after(alloc: Global, events: u64) -> Option<u128> {
    let text = text_of(alloc).ok()?;
    if text.len() > 5_000_000 {
        return None;
    }
    let module = read(alloc, text.as_bytes()).ok()?;
    let accepted = check(alloc, module, Target::X86 { cx16: false }).ok()?;
    let mut machine = Machine::start(alloc, &accepted, &[0, 1], events).ok()?;
    play(&mut machine);
    let first = accepted.module().globals.as_slice().first()?;
    if first.count == 0 {
        return None;
    }
    Some(machine.object(0, 0))
}

/// Of each 257 events of the first processor one adds to global 0, the second event being the first.
fn status_of(alloc: Global, events: u32) -> u8 {
    match number_after(alloc, u64::from(events)) {
        Some(number) if number == u128::from((events / 2).saturating_add(255) / 257) => 0,
        Some(_) => 1,
        None => 71,
    }
}
"""

# What the loop of `play` keeps, and what gets less.
INVARIANTS = """
use Rattle.ax_source.specs.MachineSteps.{Stays}
use Rattle.source_bench.proofs.play.Given as goal

abbrev pub invariant-loop-machine : goal.invariant-loop-machine
invariant-loop-machine l = Stays l.fn.machine l.machine

abbrev pub decreases-loop-machine : goal.decreases-loop-machine
decreases-loop-machine l = l.machine.room
"""

CRATES = ["ax_ops", "ax_lex", "ax_ir", "ax_lines", "ax_scope", "ax_read", "ax_target", "ax_layout", "ax_rules", "ax_check", "ax_values", "ax_typed", "ax_cells", "ax_source"]

measure("source_bench", PROGRAM, CRATES, [("%d events" % events, events) for events in [0, 1000000]], {"proofs/play/Invariants.antt": INVARIANTS})
