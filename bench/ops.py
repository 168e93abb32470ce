#!/usr/bin/env python3
"""Times a loop of ten rows of instructions that jl_ops executes: loads, a store, sums, a copy and a branch back. The
instruction of each place is found by the table of jl_code, as a machine finds it. It makes a program outside the
repository, has it proved and built over the crates here, and runs it three times. The least of three runs counts."""
import os
import shutil
import subprocess
import sys
import tempfile

top = os.path.dirname(os.path.dirname(os.path.abspath(__file__)))

PROGRAM = """//! Times a loop of ten rows.
#![tactic(auto)]

ghost use Rattle.jl_heap.specs.Stores.{IsObject};

use jl_code::{Arg, Instr, PlaceTable};
use jl_heap::{FrameKind, NewFrame, RowEnd, Shape, Store, Value};
use jl_ops::{exec_instr, is_plain};
use jl_optable::ops;
use jl_prim::{ClassId, Items, MethodId};
use std::alloc::Global;
use std::process::ExitCode;
use std::rt::Runtime;
use std::time::Instant;

const ROWS: u32 = 100_000_000;

/// The places of the loop, up to its end.
const LEN: usize = 16;

fn main(rt: HostRuntime) -> ExitCode {
    match time(&rt) {
        Some(()) => ExitCode::from(0),
        None => ExitCode::from(1),
    }
}

fn time<R: Runtime<A = Global>>(rt: &R) -> Option<()> {
    let alloc = rt.alloc();
    let instrs = ten_rows(alloc)?;
    let table = table_of(alloc, &instrs)?;
    let mut store = store_with_frame(alloc)?;
    let start = Instant::now(rt).ok()?;
    let done = run(alloc, &mut store, &instrs, &table);
    let spent = start.elapsed(rt).ok()?.as_millis();
    println!(rt; "rows: {spent} ms, {done} were executed").ok()
}

fn instr(at: u32, op: u8, arg: Arg) -> Instr {
    Instr { at, op, wide: false, arg }
}

/// Adds a local to another, counts it down, and begins again while it is positive.
fn ten_rows(alloc: Global) -> Option<Vec<Instr>> {
    let mut instrs = Vec::new(alloc);
    instrs.push(instr(0, ops::ILOAD_1, Arg::Nothing)).ok()?;
    instrs.push(instr(1, ops::ILOAD_0, Arg::Nothing)).ok()?;
    instrs.push(instr(2, ops::IADD, Arg::Nothing)).ok()?;
    instrs.push(instr(3, ops::ISTORE_1, Arg::Nothing)).ok()?;
    instrs.push(instr(4, ops::IINC, Arg::Inc(0, -1))).ok()?;
    instrs.push(instr(7, ops::ILOAD_0, Arg::Nothing)).ok()?;
    instrs.push(instr(8, ops::DUP, Arg::Nothing)).ok()?;
    instrs.push(instr(9, ops::IFEQ, Arg::Target(15))).ok()?;
    instrs.push(instr(12, ops::IFGT, Arg::Target(0))).ok()?;
    instrs.push(instr(15, ops::GOTO, Arg::Target(0))).ok()?;
    Some(instrs)
}

fn table_of(alloc: Global, instrs: &[Instr]) -> Option<PlaceTable> {
    if !instrs.iter().all(|instr| (instr.at as usize) < LEN) {
        return None;
    }
    PlaceTable::of(alloc, instrs, LEN).ok()
}

fn no_field(alloc: Global) -> Shape
    ensures { IsObject result }
{
    Shape::Object { class: ClassId(1), fields: Items::new(alloc) }
}

fn store_with_frame(alloc: Global) -> Option<Store> {
    let mut store = Store::new(alloc, no_field(alloc), no_field(alloc)).ok()?;
    let kind = FrameKind::Method(MethodId(1));
    store.frames.push(NewFrame { kind, max_stack: 4, max_locals: 2 }).ok()?;
    if store.frames.depth() == 0 || store.frames.max_locals() < 2 {
        return None;
    }
    store.frames.set_local(0, Value::Int(2_000_000_000));
    store.frames.set_local(1, Value::Int(0));
    Some(store)
}

/// So many rows one after the other, or up to the first that does not go on.
fn run(alloc: Global, store: &mut Store, instrs: &[Instr], table: &PlaceTable) -> u32 {
    for n in 0..ROWS {
        if !step(alloc, store, instrs, table) {
            return n;
        }
    }
    ROWS
}

fn step(alloc: Global, store: &mut Store, instrs: &[Instr], table: &PlaceTable) -> bool {
    if store.frames.depth() == 0 {
        return false;
    }
    let Some(index) = table.index_of(store.frames.pc()) else {
        return false;
    };
    let Some(instr) = instrs.get(index) else {
        return false;
    };
    is_plain(instr) && matches!(exec_instr(alloc, store, instr), RowEnd::Next)
}
"""

# what the program stands on, below itself
BELOW = ["jl_ops", "jl_heap", "jl_code", "jl_optable", "jl_pool", "jl_names", "jl_prim", "jl_reading", "jl_logic"]


def write(path, text):
    os.makedirs(os.path.dirname(path), exist_ok=True)
    with open(path, "w") as file:
        file.write(text)


def make(work):
    """The program's folder, in a repository whose other crates are copies of those here."""
    crates = os.path.join(work, "crates")
    crate = os.path.join(crates, "ops_bench")
    write(os.path.join(crate, "src", "main.rt"), PROGRAM)
    with open(os.path.join(top, "crates.txt")) as file:
        lines = [line for line in file if line.split(":")[0] in BELOW]
    write(os.path.join(work, "crates.txt"), "".join(lines) + f"ops_bench: {' '.join(BELOW)}\n")
    for name in BELOW:
        shutil.copytree(os.path.join(top, "crates", name), os.path.join(crates, name), ignore=shutil.ignore_patterns("out"))
    return crate


def least(program):
    """The figures of each line, where the milliseconds are the least of three runs."""
    runs = [subprocess.run([program], capture_output=True, text=True, check=True).stdout.splitlines() for _ in range(3)]
    for lines in zip(*runs):
        yield min(lines, key=lambda line: int(line.split(": ")[1].split()[0]))


def main():
    with tempfile.TemporaryDirectory() as work:
        crate = make(work)
        with open(os.path.join(work, "log"), "w+") as log:
            status = subprocess.run(["rt", "run"], cwd=crate, stdout=log, stderr=log).returncode
            if status != 0:
                log.seek(0)
                sys.exit(log.read()[-4000:])
        for line in least(os.path.join(crate, "out", "ops_bench")):
            print(f"100 million {line}")


if __name__ == "__main__":
    main()
