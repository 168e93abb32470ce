#!/usr/bin/env python3
"""Times 50 million pairs of calls of jl_heap: a value put on the top frame's stack and popped, and a slot of an array read
and set. It makes a program outside the repository, has it proved and built over the crates here, and runs it three
times. The least of three runs counts."""
import os
import shutil
import subprocess
import sys
import tempfile

top = os.path.dirname(os.path.dirname(os.path.abspath(__file__)))

PROGRAM = """//! Times pairs of calls on the top frame's stack and on the slots of an array.
#![tactic(auto)]

ghost use Rattle.std.specs.Prelude.{◌≡◌, ◌+◌, ◌≤◌, length, IsSome};
ghost use Rattle.jl_heap.specs.Frames.{top_of, height_in, room_in};
ghost use Rattle.jl_heap.specs.Heap.{kinds_in};
ghost use Rattle.jl_heap.specs.Stores.{IsObject};
ghost use Rattle.jl_heap.specs.Values.{kind_of};

use jl_heap::{Base, Element, FrameKind, Frames, Heap, NewFrame, Shape, Store, Value};
use jl_prim::{ClassId, Items, MethodId, ObjRef};
use std::alloc::Global;
use std::process::ExitCode;
use std::rt::Runtime;
use std::time::Instant;

const PAIRS: u32 = 50_000_000;

const HEIGHT: u32 = 100;

const LENGTH: u32 = 1_000;

fn main(rt: HostRuntime) -> ExitCode {
    match times(&rt) {
        Some(()) => ExitCode::from(0),
        None => ExitCode::from(1),
    }
}

fn times<R: Runtime<A = Global>>(rt: &R) -> Option<()> {
    time_stack(rt)?;
    time_slots(rt)
}

fn time_stack<R: Runtime<A = Global>>(rt: &R) -> Option<()> {
    let mut frames = Frames::new(rt.alloc(), 1);
    let kind = FrameKind::Method(MethodId(1));
    let frame = NewFrame { kind, max_stack: HEIGHT as u16, max_locals: 4 };
    frames.push(frame).ok()?;
    let start = Instant::now(rt).ok()?;
    let sum = put_and_pop(&mut frames);
    let spent = start.elapsed(rt).ok()?.as_millis();
    println!(rt; "put and pop: {spent} ms, sum {sum}").ok()
}

fn time_slots<R: Runtime<A = Global>>(rt: &R) -> Option<()> {
    let mut store = Store::new(rt.alloc(), no_field(rt.alloc()), no_field(rt.alloc())).ok()?;
    let element = Element { base: Base::Prim(b'I'), dims: 0 };
    let array = store.heap.alloc(Shape::Array { element, len: LENGTH }).ok()?;
    let start = Instant::now(rt).ok()?;
    let sum = read_and_set_array(&mut store.heap, array)?;
    let spent = start.elapsed(rt).ok()?.as_millis();
    println!(rt; "slot and set_slot: {spent} ms, sum {sum}").ok()
}

fn no_field(alloc: Global) -> Shape
    ensures { IsObject result }
{
    Shape::Object { class: ClassId(1), fields: Items::new(alloc) }
}

/// As many values are put in a row as the stack holds, and popped again.
fn put_and_pop(frames: &mut Frames) -> i32
    requires frame { IsSome (top_of frames.old) }
    requires room { HEIGHT ≤ room_in frames.old }
{
    let mut sum = 0i32;
    for _round in 0..PAIRS / HEIGHT {
        put_all(frames);
        sum = sum.wrapping_add(pop_all(frames));
        frames.clear();
    }
    sum
}

fn put_all(frames: &mut Frames)
    requires frame { IsSome (top_of frames.old) }
    requires room { HEIGHT ≤ room_in frames.old }
    ensures frame { IsSome (top_of frames.new) }
    ensures slots { room_in frames.new + height_in frames.new ≡ room_in frames.old + height_in frames.old }
{
    for n in 0..HEIGHT {
        frames.put(Value::Int(n as i32));
    }
}

fn pop_all(frames: &mut Frames) -> i32
    requires frame { IsSome (top_of frames.old) }
    ensures frame { IsSome (top_of frames.new) }
    ensures slots { room_in frames.new + height_in frames.new ≡ room_in frames.old + height_in frames.old }
{
    let mut sum = 0i32;
    for _value in 0..HEIGHT {
        if let Some(Value::Int(n)) = frames.pop() {
            sum = sum.wrapping_add(n);
        }
    }
    sum
}

fn read_and_set_array(heap: &mut Heap, o: ObjRef) -> Option<i32> {
    if !heap.has(o) {
        return None;
    }
    match heap.shape(o) {
        Shape::Array { len, .. } => {
            if *len == LENGTH {
                return Some(read_and_set(heap, o));
            }
            None
        }
        _ => None,
    }
}

fn read_and_set(heap: &mut Heap, o: ObjRef) -> i32
    requires { length (kinds_in heap.old o) ≡ LENGTH }
{
    let mut sum = 0i32;
    for n in 0..PAIRS {
        let at = (n % LENGTH) as usize;
        let value = heap.slot(o, at);
        sum = sum.wrapping_add(int_of(value));
        heap.set_slot(o, at, next(value));
    }
    sum
}

fn int_of(value: Value) -> i32 {
    match value {
        Value::Int(n) => n,
        _ => 0,
    }
}

fn next(value: Value) -> Value
    ensures { kind_of result ≡ kind_of value }
{
    match value {
        Value::Int(n) => Value::Int(n.wrapping_add(1)),
        other => other,
    }
}
"""

ROUNDS = """use Rattle.std.proofs.Common.{◌≤◌, IsSome}
use Rattle.jl_heap.specs.Frames.{top_of, room_in}
use Rattle.heap_bench.specs.declared.TheConstants.{HEIGHT}
use Rattle.heap_bench.proofs.put_and_pop.Given as goal

abbrev pub invariant-loop-round : goal.invariant-loop-round
invariant-loop-round l = IsSome (top_of l.frames) × (HEIGHT ≤ room_in l.frames)
"""

PUTS = """use Rattle.std.proofs.Common.{◌≡◌, ◌+◌, ◌≤◌, IsSome}
use Rattle.jl_heap.specs.Frames.{top_of, height_in, room_in}
use Rattle.heap_bench.specs.declared.TheConstants.{HEIGHT}
use Rattle.heap_bench.proofs.put_all.Given as goal

abbrev pub invariant-loop-n : goal.invariant-loop-n
invariant-loop-n l = IsSome (top_of l.frames) × (HEIGHT ≤ room_in l.frames + l.n) × (room_in l.frames + height_in l.frames ≡ room_in l.fn.frames + height_in l.fn.frames)
"""

POPS = """use Rattle.std.proofs.Common.{◌≡◌, ◌+◌, IsSome}
use Rattle.jl_heap.specs.Frames.{top_of, height_in, room_in}
use Rattle.heap_bench.proofs.pop_all.Given as goal

abbrev pub invariant-loop-value : goal.invariant-loop-value
invariant-loop-value l = IsSome (top_of l.frames) × (room_in l.frames + height_in l.frames ≡ room_in l.fn.frames + height_in l.fn.frames)
"""

SLOTS = """use Rattle.std.proofs.Common.{◌≡◌, length}
use Rattle.jl_heap.specs.Heap.{kinds_in}
use Rattle.heap_bench.specs.declared.TheConstants.{LENGTH}
use Rattle.heap_bench.proofs.read_and_set.Given as goal

abbrev pub invariant-loop-n : goal.invariant-loop-n
invariant-loop-n l = length (kinds_in l.heap l.o) ≡ LENGTH
"""

INVARIANTS = {"put_and_pop": ROUNDS, "put_all": PUTS, "pop_all": POPS, "read_and_set": SLOTS}

# what the program stands on, below itself
BELOW = ["jl_heap", "jl_names", "jl_prim", "jl_reading", "jl_logic"]


def write(path, text):
    os.makedirs(os.path.dirname(path), exist_ok=True)
    with open(path, "w") as file:
        file.write(text)


def make(work):
    """The program's folder, in a repository whose other crates are copies of those here."""
    crates = os.path.join(work, "crates")
    crate = os.path.join(crates, "heap_bench")
    write(os.path.join(crate, "src", "main.rt"), PROGRAM)
    for name, text in INVARIANTS.items():
        write(os.path.join(crate, "proofs", name, "Invariants.antt"), text)
    with open(os.path.join(top, "crates.txt")) as file:
        lines = [line for line in file if line.split(":")[0] in BELOW]
    write(os.path.join(work, "crates.txt"), "".join(lines) + f"heap_bench: {' '.join(BELOW)}\n")
    for name in BELOW:
        shutil.copytree(os.path.join(top, "crates", name), os.path.join(crates, name), ignore=shutil.ignore_patterns("out"))
    return crate


def least(program):
    """The figures of each line, where the milliseconds are the least of three runs."""
    runs = [subprocess.run([program], capture_output=True, text=True, check=True).stdout.splitlines() for _ in range(3)]
    for lines in zip(*runs):
        yield min(lines, key=lambda line: int(line.split(": ")[1].split()[0]))


def main():
    with tempfile.TemporaryDirectory() as work:
        crate = make(work)
        with open(os.path.join(work, "log"), "w+") as log:
            status = subprocess.run(["rt", "run"], cwd=crate, stdout=log, stderr=log).returncode
            if status != 0:
                log.seek(0)
                sys.exit(log.read()[-4000:])
        for line in least(os.path.join(crate, "out", "heap_bench")):
            print(f"50 million pairs of {line}")


if __name__ == "__main__":
    main()
