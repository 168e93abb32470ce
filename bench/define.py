#!/usr/bin/env python3
"""Times the definition of a layer of 1,000 modules, each of which exports ten packages and reads all before it: no two may
read each other. It makes a program outside the repository, has it proved and built over the crates here, and runs it
three times. The least of three runs counts."""
import os
import shutil
import subprocess
import sys
import tempfile

top = os.path.dirname(os.path.dirname(os.path.abspath(__file__)))

PROGRAM = """//! Times the definition of a layer, with one loader and with many.
#![tactic(auto)]

mod making;
mod stage;

use crate::making::{found, observed};
use crate::stage::Stage;
use jl_layer::Mode;
use jl_prim::{ConfigId, Found, Items, LayerId, ParentLoader};
use std::alloc::Global;
use std::rt::Runtime;
use std::test::Fail;
use std::time::Instant;

const MODULES: usize = 1_000;

fn main(rt: HostRuntime) -> Result<(), Fail> {
    times(&rt)
}

fn times<R: Runtime<A = Global>>(rt: &R) -> Result<(), Fail> {
    let alloc = rt.alloc();
    let mut stage = Stage::new(alloc);
    let base = found(alloc, "module java.base; packages java/lang")?;
    stage.keep(alloc, &base, &[ConfigId(0)])?;
    stage.define_boot(ConfigId(1))??;
    let modules = chained(alloc)?;
    stage.keep(alloc, &modules, &[ConfigId(1)])?;
    time(rt, &mut stage, Mode::One)?;
    time(rt, &mut stage, Mode::Many)
}

fn time<R: Runtime<A = Global>>(rt: &R, stage: &mut Stage, mode: Mode) -> Result<(), Fail> {
    let start = Instant::now(rt)?;
    stage.define(ConfigId(2), &[LayerId(1)], mode, ParentLoader::Null)??;
    let spent = start.elapsed(rt)?.as_millis();
    println!(rt; "{mode:?}: {spent} ms")?;
    Ok(())
}

/// Modules each of which requires the one before it transitively, so that it reads all before it.
fn chained(alloc: Global) -> Result<Found, Fail> {
    let mut modules = Items::new(alloc);
    for n in 0..MODULES {
        let text = statements(alloc, n)?;
        modules.push(observed(alloc, text.as_str())?)?;
    }
    Ok(Found { modules })
}

fn statements(alloc: Global, n: usize) -> Result<String, Fail> {
    let mut text = format!(in alloc; "module m{}", n % 1_000 + 1_000)?;
    if n > 0 {
        let one = format!(in alloc; "; requires transitive m{}", (n - 1) % 1_000 + 1_000)?;
        text.push_str(one.as_str())?;
    }
    let mut packages = String::from_str(alloc, "; packages")?;
    for k in 0..10 {
        let package = format!(in alloc; "p{n}/q{k}")?;
        text.push_str("; exports ")?;
        text.push_str(package.as_str())?;
        packages.push_str(" ")?;
        packages.push_str(package.as_str())?;
    }
    text.push_str(packages.as_str())?;
    Ok(text)
}
"""

# what the program stands on, below itself
BELOW = [
    "jl_making", "jl_layer", "jl_config", "jl_loaders", "jl_access", "jl_closure", "jl_modinfo", "jl_classfile", "jl_tree",
    "jl_pool", "jl_names", "jl_prim", "jl_reading", "jl_logic",
]

# the files of the tests by which it makes layers whose conditions are met
SHARED = ["src/making.rt", "src/stage.rt", "specs", "proofs"]


def write(path, text):
    os.makedirs(os.path.dirname(path), exist_ok=True)
    with open(path, "w") as file:
        file.write(text)


def share(crate):
    """The tests' files, as those of the program."""
    tests = os.path.join(top, "crates", "jl_layer_tests")
    for name in SHARED:
        copy = shutil.copytree if os.path.isdir(os.path.join(tests, name)) else shutil.copy
        copy(os.path.join(tests, name), os.path.join(crate, name))
    for folder, _, files in os.walk(crate):
        for name in files:
            path = os.path.join(folder, name)
            with open(path) as file:
                text = file.read()
            write(path, text.replace("jl_layer_tests", "define_bench"))


def make(work):
    """The program's folder, in a repository whose other crates are those here."""
    crates = os.path.join(work, "crates")
    crate = os.path.join(crates, "define_bench")
    write(os.path.join(crate, "src", "main.rt"), PROGRAM)
    share(crate)
    with open(os.path.join(top, "crates.txt")) as file:
        lines = [line for line in file if line.split(":")[0] in BELOW]
    write(os.path.join(work, "crates.txt"), "".join(lines) + f"define_bench: {' '.join(BELOW)}\n")
    for name in BELOW:
        shutil.copytree(os.path.join(top, "crates", name), os.path.join(crates, name), ignore=shutil.ignore_patterns("out"))
    return crate


def least(program):
    """The figures of each line, where the milliseconds are the least of three runs."""
    runs = [subprocess.run([program], capture_output=True, text=True, check=True).stdout.splitlines() for _ in range(3)]
    for lines in zip(*runs):
        yield min(lines, key=lambda line: int(line.split(": ")[1].split()[0]))


def main():
    with tempfile.TemporaryDirectory() as work:
        crate = make(work)
        with open(os.path.join(work, "log"), "w+") as log:
            status = subprocess.run(["rt", "run"], cwd=crate, stdout=log, stderr=log).returncode
            if status != 0:
                log.seek(0)
                sys.exit(log.read()[-4000:])
        for line in least(os.path.join(crate, "out", "define_bench")):
            print(f"a layer of 1,000 modules, each with ten packages for all behind it, {line}")


if __name__ == "__main__":
    main()
