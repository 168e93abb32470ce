#!/usr/bin/env python3
"""Times `jlayers resolve` as a whole process over trees of 10, 100, 1,000 and 4,000 modules, and where there is a java
also Configuration.resolveAndBind over the same trees, as a whole process of java. Prints seconds, peak memory and the
ratio, and whether both printed the same graph. The least of three runs counts."""
import os
import shutil
import subprocess
import sys
import tempfile
import time

import tree

top = os.path.dirname(os.path.dirname(os.path.abspath(__file__)))


def run(words, out):
    """Seconds and peak memory in MiB of one run, whose output goes to a file."""
    with open(out, "wb") as sink:
        begun = time.monotonic()
        process = subprocess.Popen(words, stdout=sink)
        _, status, used = os.wait4(process.pid, 0)
        seconds = time.monotonic() - begun
    if status != 0:
        sys.exit(f"{words[0]} ended with status {os.waitstatus_to_exitcode(status)}")
    return seconds, used.ru_maxrss / 1024


def least(words, out):
    return min(run(words, out) for _ in range(3))


def same(one, other):
    with open(one, "rb") as a, open(other, "rb") as b:
        return a.read() == b.read()


def main():
    sizes = [int(word) for word in sys.argv[1:]] or [10, 100, 1000, 4000]
    program = os.path.join(top, "crates", "jlayers", "out", "jlayers")
    # builds the program where it is not built yet
    subprocess.run([os.path.join(top, "jlayers")], stdout=subprocess.DEVNULL)
    java = shutil.which("java") if shutil.which("javac") else None
    with tempfile.TemporaryDirectory() as work:
        if java:
            subprocess.run(["javac", "-d", work, os.path.join(top, "bench", "Graph.java")], check=True)
        for size in sizes:
            path = os.path.join(work, str(size))
            tree.write_tree(size, path)
            ours, theirs = os.path.join(work, "ours"), os.path.join(work, "theirs")
            seconds, memory = least([program, "resolve", "--module-path", path, "z"], ours)
            line = f"{size} modules: jlayers {seconds:.3f} s, {memory:.0f} MiB"
            if java:
                java_seconds, java_memory = least([java, "-cp", work, "Graph", path, "z"], theirs)
                agrees = "the same graph" if same(ours, theirs) else "ANOTHER GRAPH"
                line += f"; java {java_seconds:.3f} s, {java_memory:.0f} MiB; ratio {seconds / java_seconds:.2f}; {agrees}"
            print(line, flush=True)
            shutil.rmtree(path)


if __name__ == "__main__":
    main()
