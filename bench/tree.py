#!/usr/bin/env python3
"""Writes a tree of N modules below a folder: m0 to m(N-2), each of which exports a package and, from m1 on, requires
transitively its parent in a binary tree, and z, which requires all of them. z is the root to resolve."""
import os
import struct
import sys


class Pool:
    """A constant pool that holds each entry once (JVMS 4.4)."""

    def __init__(self):
        self.entries, self.places = [], {}

    def enter(self, entry):
        if entry not in self.places:
            self.entries.append(entry)
            self.places[entry] = len(self.entries)
        return self.places[entry]

    def text(self, text):
        data = text.encode()
        return self.enter(struct.pack(">BH", 1, len(data)) + data)

    def named(self, tag, name):
        return self.enter(struct.pack(">BH", tag, self.text(name)))

    def data(self):
        return struct.pack(">H", len(self.entries) + 1) + b"".join(self.entries)


def declaration(name, required, package):
    """The bytes of a module-info.class (JVMS 4.7.25): what it requires transitively, plainly, and exports."""
    pool = Pool()
    this = pool.named(7, "module-info")
    entries = [(pool.named(19, other), flags) for other, flags in required] + [(pool.named(19, "java.base"), 0x8000)]
    module = struct.pack(">HHHH", pool.named(19, name), 0, 0, len(entries))
    module += b"".join(struct.pack(">HHH", index, flags, 0) for index, flags in entries)
    packages = [package] if package else []
    module += struct.pack(">H", len(packages))
    module += b"".join(struct.pack(">HHH", pool.named(20, p), 0, 0) for p in packages)
    module += struct.pack(">HHH", 0, 0, 0)
    listed = struct.pack(">H", len(packages)) + b"".join(struct.pack(">H", pool.named(20, p)) for p in packages)
    attributes = [(pool.text("Module"), module), (pool.text("ModulePackages"), listed)]
    body = struct.pack(">HHHHHH", 0x8000, this, 0, 0, 0, 0) + struct.pack(">H", len(attributes))
    body += b"".join(struct.pack(">HI", index, len(content)) + content for index, content in attributes)
    return struct.pack(">IHH", 0xCAFEBABE, 0, 53) + pool.data() + body


def write(folder, name, data):
    os.makedirs(os.path.join(folder, name), exist_ok=True)
    with open(os.path.join(folder, name, "module-info.class"), "wb") as out:
        out.write(data)


def write_tree(count, folder):
    for i in range(count - 1):
        parent = [(f"m{(i - 1) // 2}", 0x20)] if i else []
        write(folder, f"m{i}", declaration(f"m{i}", parent, f"k{i}"))
    write(folder, "z", declaration("z", [(f"m{i}", 0) for i in range(count - 1)], None))


if __name__ == "__main__":
    write_tree(int(sys.argv[1]), sys.argv[2])
