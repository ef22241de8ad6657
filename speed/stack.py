#!/usr/bin/env python3
"""The stack that each public function takes, its return address and its callees included: `stack.py OBJDUMP OBJECT..`, of object
files that were compiled with -fstack-size-section and without inlining (see speed/stack). Prints a table. What a function of the C library
takes is not in it, and where one is called by a pointer the table says so.
"""
import functools
import glob
import os
import re
import struct
import subprocess
import sys

POINTER = "*"  # a call by a pointer

# A function that calls itself, and how deep: four digits a call, of the 20 that a number of 64 bits has.
DEPTHS = {"printing::field::put_number": 5}


def sections(data):
    """(name, link, bytes) of each section of an ELF file for x86-64."""
    shoff, = struct.unpack_from("<Q", data, 40)
    size, count, names = struct.unpack_from("<HHH", data, 58)
    heads = [struct.unpack_from("<IIQQQQIIQQ", data, shoff + i * size) for i in range(count)]
    text = data[heads[names][4]:]
    return [(text[h[0]:text.index(b"\0", h[0])].decode(), h[6], data[h[4]:h[4] + h[5]]) for h in heads]


def frames(path):
    """Octets of the stack frame of the function in each section, its return address not counted."""
    with open(path, "rb") as file:
        found = sections(file.read())
    sizes = {}
    for name, link, octets in found:
        if name == ".stack_sizes":
            at, size, shift = 8, 0, 0
            while True:
                size |= (octets[at] & 127) << shift
                shift += 7
                at += 1
                if octets[at - 1] < 128:
                    break
            sizes[found[link][0]] = size
    return sizes


def calls(objdump, path):
    """The functions that each function calls, and the section of each, by their names."""
    text = subprocess.run([objdump, "-dr", "--no-show-raw-insn", path], stdout=subprocess.PIPE, check=True).stdout.decode()
    section, name, out, where = None, None, {}, {}
    for line in text.split("\n"):
        if m := re.match(r"Disassembly of section (.+):$", line):
            section = m.group(1)
        elif m := re.match(r"[0-9a-f]+ <(.+)>:$", line):
            name = m.group(1)
            out[name] = set()
            where[name] = section
        elif m := re.search(r"R_X86_64_P(?:LT|C)32\s+(?:\.text\.)?(\S.*?)(?:[-+]0x[0-9a-f]+)?$", line):
            out[name].add(m.group(1))
        elif re.search(r"\bcall\s+\*", line):
            out[name].add(POINTER)
        elif m := re.search(r"\bcall\s+[0-9a-f]+ <((?:(?!\+0x).)+)>$", line):
            out[name].add(m.group(1))
    return out, where


def deepest(objdump, path, wanted):
    """The stack of the wanted functions of an object file, and whether a call by a pointer is left out of it, by their names."""
    sizes = frames(path)
    callees, where = calls(objdump, path)

    @functools.lru_cache(maxsize=None)
    def deep(name):
        """(octets, whether a call by a pointer is left out)"""
        if name not in callees:
            return 0, name == POINTER  # else memcpy, memset, read or write, of the C library
        if name in above:
            sys.exit(f"{name} calls itself")
        if where[name] not in sizes:
            sys.exit(f"{name} has no frame of one size")
        above.append(name)
        others = [deep(n) for n in sorted(callees[name]) if n != name or name not in DEPTHS]
        above.pop()
        own = DEPTHS.get(name, 1) * (8 + sizes[where[name]])
        return own + max([octets for octets, _ in others], default=0), any(left for _, left in others)

    above = []
    return {name: deep(name) for name in callees if name in wanted}


def public():
    """The public functions of the libraries, as crate::module::name; those that a static library exports by their own name."""
    with open("crates.txt", encoding="utf-8") as lines:
        static = {line.split()[0] for line in lines if re.match(r"\w+ +staticlib\b", line)}
    for path in sorted(glob.glob("crates/*/src/**/*.rt", recursive=True)):
        crate = path.split("/")[1]
        if os.path.exists(f"crates/{crate}/src/main.rt"):
            continue
        module = path.split("/src/")[1][:-3].replace("/", "::")
        with open(path, encoding="utf-8") as file:
            for name in re.findall(r'^pub (?:extern "C" )?fn (\w+)', file.read(), re.M):
                yield name if crate in static else f"{crate}::{name}" if module == "lib" else f"{crate}::{module}::{name}"


def main(objdump, *paths):
    names, stack = list(public()), {}
    for path in paths:
        stack.update(deepest(objdump, path, set(names)))
    print("| function | octets of stack |")
    print("|---|---|")
    for name in names:
        if name in stack:
            octets, left = stack[name]
            print(f"| `{name}` | {octets:,}{', without what it calls by a pointer' if left else ''} |")


if __name__ == "__main__":
    main(*sys.argv[1:])
