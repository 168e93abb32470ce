#!/usr/bin/env python3
"""Times the check of a method: 60,001 bytes of code (43,701 instructions), 1,000 declared frames, and 100 handlers, of which
half name what they catch. There are two such methods. In `near` each handler covers the 540 bytes before it, and in `all`
each covers all but the last instruction. The class file is made here and read by jl_class, which is not timed. It makes a
program outside the repository, has it proved and built over the crates here, and runs it three times. The least of three
runs counts.

With a folder as its argument it only writes the class file there, as p/A.class."""
import os
import shutil
import struct
import subprocess
import sys
import tempfile

from tree import Pool

top = os.path.dirname(os.path.dirname(os.path.abspath(__file__)))

PROGRAM = """//! Times the check of each method of a class file.
#![tactic(auto)]

use jl_class::{ClassDecl, read_class};
use jl_prim::{Items, MOST_FILE_BYTES, Name};
use jl_tree::{FolderTree, Tree};
use jl_verify::verify;
use jl_vtypes::{ListedClass, ListedClasses};
use std::alloc::Global;
use std::process::ExitCode;
use std::rt::Runtime;
use std::time::Instant;

static CLASSES: [[&str; 2]; 5] = [
    ["java/lang/Throwable", "java/lang/Object"],
    ["p/T", "p/U"],
    ["p/U", "java/lang/Throwable"],
    ["p/S", "java/lang/Object"],
    ["p/A", "p/S"],
];

fn main(rt: HostRuntime) -> ExitCode {
    match times(&rt) {
        Some(()) => ExitCode::from(0),
        None => ExitCode::from(1),
    }
}

fn times<R: Runtime<A = Global>>(rt: &R) -> Option<()> {
    let class = class_read(rt)?;
    for at in 0..class.methods().len() {
        time(rt, &class, at)?;
    }
    Some(())
}

fn class_read<R: Runtime<A = Global>>(rt: &R) -> Option<ClassDecl> {
    let mut tree = FolderTree::new(rt);
    let path = named(rt.alloc(), "p/A.class")?;
    let bytes = tree.read(rt.alloc(), &path, MOST_FILE_BYTES).ok()??;
    read_class(rt.alloc(), bytes.as_slice()).ok()
}

fn time<R: Runtime<A = Global>>(rt: &R, class: &ClassDecl, at: usize) -> Option<()> {
    if at >= class.methods().len() {
        return None;
    }
    let mut h = hierarchy(rt.alloc())?;
    let start = Instant::now(rt).ok()?;
    let answer = verify(rt.alloc(), &mut h, class, at);
    let spent = start.elapsed(rt).ok()?.as_millis();
    let name = &class.methods()[at].name;
    println!(rt; "{name}: {spent} ms, {answer:?}, {} questions", h.asked().len()).ok()
}

fn hierarchy(alloc: Global) -> Option<ListedClasses> {
    let mut listed = Items::new(alloc);
    for [name, superclass] in &CLASSES {
        listed.push(listed_class(alloc, name, superclass)?).ok()?;
    }
    Some(ListedClasses::new(alloc, listed, Items::new(alloc), Items::new(alloc)))
}

fn listed_class(alloc: Global, name: &str, superclass: &str) -> Option<ListedClass> {
    Some(ListedClass {
        name: named(alloc, name)?,
        is_interface: false,
        superclass: Some(named(alloc, superclass)?),
    })
}

fn named(alloc: Global, text: &str) -> Option<Name> {
    Name::from_text(alloc, text).ok()
}
"""

# what the program stands on, below itself
BELOW = [
    "jl_verify", "jl_vtypes", "jl_class", "jl_classfile", "jl_code", "jl_frames", "jl_optable", "jl_tree", "jl_pool", "jl_names",
    "jl_prim", "jl_reading", "jl_logic",
]

BLOCKS = 1_000
SIZE = 60


class ClassFile(Pool):
    """A pool with what the code names."""

    def of_class(self, name):
        return self.named(7, name)

    def member(self, tag, owner, name, desc):
        name_and_type = self.enter(struct.pack(">BHH", 12, self.text(name), self.text(desc)))
        return self.enter(struct.pack(">BHH", tag, self.of_class(owner), name_and_type))

    def code(self, line):
        """The bytes of words: two digits for a byte, and a name for the index of what is named."""
        named = {
            "A": self.of_class("p/A"),
            "init": self.member(10, "p/A", "<init>", "()V"),
            "f": self.member(9, "p/A", "f", "I"),
            "s": self.member(9, "p/A", "s", "Lp/S;"),
            "k": self.member(10, "p/A", "k", "(IJ)Lp/A;"),
            "q": self.member(10, "p/A", "q", "(Lp/S;[I)I"),
        }
        return b"".join(struct.pack(">H", named[word]) if word in named else bytes.fromhex(word) for word in line.split())


# rows of instructions between blocks. The locals are an int, a long, an array of ints and an A.
INTS = "1a 04 60 3b 840001 1a 05 68 1a 7e 3b"
LONGS = "1f 0a 61 1f 65 40 1f 88 3b 1f 1a 79 40"
ARRAYS = "2d 1a 2d 1a 2e 4f 2d be bc0a 4e"
FIELDS = "1904 b4 f 3b 1904 1a b5 f 1904 1904 b5 s"
CALLS = "1904 1a 1f b6 k 3a04 1904 2d b8 q 3b"
NEW = "bb A 59 b7 init 3a04"
ROWS = [[INTS, LONGS, CALLS], [ARRAYS, FIELDS], [NEW, ARRAYS, LONGS], [CALLS, INTS, FIELDS], [LONGS, LONGS, NEW]]


def is_handler(block):
    """The last of each ten blocks handles what the others throw."""
    return block % 10 == 9


def has_more(block):
    """One block of each ten begins with one more local."""
    return block % 10 == 3


def plain_block(block, distance):
    """A block at about this distance, or at its opposite, at which the plain frame is declared."""
    to = block + distance
    to = to if 0 < to <= BLOCKS else block - distance
    while is_handler(to) or has_more(to):
        to += 1
    return to


def block_of(pool, block):
    """The bytes of a block: rows, branches to other blocks, and what the next one needs."""
    code, end = b"\x57" if is_handler(block) else b"", end_of(pool, block)
    for row in ROWS[block % len(ROWS)] * 2:
        more = pool.code(row)
        if len(code) + len(more) + 8 + len(end) <= SIZE:
            code += more
    for op, distance in (0x99, 7), (0x9E, -400):
        code += struct.pack(">BBh", 0x1A, op, way(block, distance, len(code) + 1))
    return code + bytes(SIZE - len(code) - len(end)) + end


def end_of(pool, block):
    if block % 20 == 5:
        # a tableswitch whose words are aligned to four bytes
        return struct.pack(">BBiii3i", 0x1A, 0xAA, way(block, 1, 35), 1, 3, *(way(block, distance, 35) for distance in (2, 20, -20)))
    if is_handler(block + 1):
        return struct.pack(">Bh", 0xA7, SIZE + 3)
    return pool.code("1904 3a05") if has_more(block + 1) else b""


def way(block, distance, at):
    """The offset of a branch that stands so far behind the first byte of a block."""
    return SIZE * (plain_block(block, distance) - block) - at


def stack_map(pool):
    """A frame for each block but the first, and one for the return behind them."""
    frames = b""
    for block in range(1, BLOCKS + 1):
        delta = SIZE - 1 if block > 1 else SIZE
        if block < BLOCKS and is_handler(block):
            frames += struct.pack(">BHBH", 247, delta, 7, pool.of_class(caught(block) or "java/lang/Throwable"))
        elif has_more(block):
            frames += struct.pack(">BHBH", 252, delta, 7, pool.of_class("p/A"))
        elif has_more(block - 1):
            frames += struct.pack(">BH", 250, delta)
        else:
            frames += struct.pack(">B", delta)
    return struct.pack(">H", BLOCKS) + frames


def caught(block):
    return "p/T" if block % 20 == 9 else None


def handlers(pool, covers_all):
    """A handler for each ten blocks."""
    rows = b""
    for block in filter(is_handler, range(BLOCKS)):
        start, end = (0, SIZE * BLOCKS) if covers_all else (SIZE * (block - 9), SIZE * block)
        rows += struct.pack(">HHHH", start, end, SIZE * block, pool.of_class(caught(block)) if caught(block) else 0)
    return rows


def method_of(pool, name, covers_all):
    code = b"".join(block_of(pool, block) for block in range(BLOCKS)) + b"\xb1"
    rows, frames = handlers(pool, covers_all), stack_map(pool)
    content = struct.pack(">HHI", 8, 6, len(code)) + code + struct.pack(">H", len(rows) // 8) + rows
    content += struct.pack(">HHI", 1, pool.text("StackMapTable"), len(frames)) + frames
    head = struct.pack(">HHHH", 9, pool.text(name), pool.text("(IJ[ILp/A;)V"), 1)
    return head + struct.pack(">HI", pool.text("Code"), len(content)) + content


def class_file():
    pool = ClassFile()
    head = struct.pack(">HHHHH", 0x21, pool.of_class("p/A"), pool.of_class("p/S"), 0, 0)
    methods = [method_of(pool, "near", False), method_of(pool, "all", True)]
    return struct.pack(">IHH", 0xCAFEBABE, 0, 53) + pool.data() + head + struct.pack(">H", len(methods)) + b"".join(methods) + bytes(2)


def write(path, data):
    os.makedirs(os.path.dirname(path), exist_ok=True)
    with open(path, "wb") as file:
        file.write(data)


def make(work):
    """The program's folder, in a repository whose other crates are copies of those here."""
    crates = os.path.join(work, "crates")
    crate = os.path.join(crates, "verify_bench")
    write(os.path.join(crate, "src", "main.rt"), PROGRAM.encode())
    write(os.path.join(crate, "p", "A.class"), class_file())
    with open(os.path.join(top, "crates.txt")) as file:
        lines = [line for line in file if line.split(":")[0] in BELOW]
    write(os.path.join(work, "crates.txt"), ("".join(lines) + f"verify_bench: {' '.join(BELOW)}\n").encode())
    for name in BELOW:
        shutil.copytree(os.path.join(top, "crates", name), os.path.join(crates, name), ignore=shutil.ignore_patterns("out"))
    return crate


def least(crate):
    """The figures of each line, where the milliseconds are the least of three runs."""
    program = os.path.join(crate, "out", "verify_bench")
    runs = [subprocess.run([program], cwd=crate, capture_output=True, text=True, check=True).stdout.splitlines() for _ in range(3)]
    for lines in zip(*runs):
        if any("Ok(())" not in line for line in lines):
            sys.exit(f"not accepted: {lines[0]}")
        yield min(lines, key=lambda line: int(line.split(": ")[1].split()[0]))


def main(words):
    if words:
        write(os.path.join(words[0], "p", "A.class"), class_file())
        return
    with tempfile.TemporaryDirectory() as work:
        crate = make(work)
        with open(os.path.join(work, "log"), "w+") as log:
            status = subprocess.run(["rt", "run"], cwd=crate, stdout=log, stderr=log).returncode
            if status != 0:
                log.seek(0)
                sys.exit(log.read()[-4000:])
        for line in least(crate):
            print(f"a method with 1,000 declared frames, {line}")


if __name__ == "__main__":
    main(sys.argv[1:])
