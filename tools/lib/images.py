"""Writes a shared library for Windows or macOS as assembly for Linux: the same machine code at the same distances, with ELF symbols.

A program for Linux on the same processor can link it and run the code. Only the pointers that a loader fills in differ.
"""
import os
import re
import struct
import subprocess

import common

ALIGNMENT = 16384
# What pointers a listing of llvm-objdump names: those into the library, and those to functions of the system.
REBASED = re.compile(r"^__\w+\s+__\w+\s+(0x[0-9A-F]+)\s+pointer", re.M)
BOUND = re.compile(r"^__\w+\s+__\w+\s+(0x[0-9A-F]+)\s+(?:pointer\s+-?\d+\s+)?\S+\s+_(\w+)$", re.M)
EXPORTED = re.compile(r"^(0x[0-9A-F]+)\s+_(\w+)$", re.M)
# The same in what llvm-readobj says of a DLL: its sections, pointers into it, the slots of functions of a DLL, and its exports.
SECTION = re.compile(r"VirtualSize: (\w+)\s+VirtualAddress: (\w+)\s+RawDataSize: (\w+)\s+PointerToRawData: (\w+)")
RELOCATED = re.compile(r"Type: DIR64\s+Address: (\w+)")
IMPORTED = re.compile(r"ImportAddressTableRVA: (\w+)((?:\s+Symbol: .*)*)")
NAMED = re.compile(r"Name: (\w+)\s+RVA: (\w+)")


class Image:
    """The bytes of a library as its system loads it at address 0, its exports, and its pointers: to an offset or to a function."""

    def __init__(self, memory, exports, pointers):
        self.memory, self.exports, self.pointers = memory, exports, pointers

    def assembly(self, folder, name):
        """The paths of the assembly and of the bytes that it includes."""
        path, data = os.path.join(folder, name + ".s"), os.path.join(folder, name + ".bin")
        common.write(data, self.memory)
        lines = ['.section .image, "awx", %progbits', ".balign %d" % ALIGNMENT, "image:"]
        at = 0
        for place, target in sorted(self.pointers.items()):
            # A size of 0 would include the rest.
            lines += ['.incbin "%s", %d, %d' % (data, at, place - at)] if place > at else []
            lines.append(".quad %s" % (target if isinstance(target, str) else "image + %d" % target))
            at = place + 8
        lines.append('.incbin "%s", %d' % (data, at))
        for export, offset in sorted(self.exports.items()):
            lines += [".globl %s" % export, ".set %s, image + %d" % (export, offset)]
        common.write(path, "\n".join(lines + ['.section .note.GNU-stack, "", %progbits', ""]))
        return path


def said(*words):
    return subprocess.run(words, stdin=subprocess.DEVNULL, stdout=subprocess.PIPE, check=True).stdout.decode()


def loaded(data, parts):
    """The memory of a library that has (address, size, offset in the file, size in the file) parts."""
    memory = bytearray(max(address + size for address, size, _, _ in parts))
    for address, _, offset, size in parts:
        memory[address : address + size] = data[offset : offset + size]
    return memory


def number(memory, at):
    return struct.unpack_from("<Q", memory, at)[0]


def macho(path):
    """The image of a dylib, whose preferred address is 0."""
    data, parts, at = common.read_bytes(path), [], 32
    for _ in range(struct.unpack_from("<I", data, 16)[0]):
        kind, size = struct.unpack_from("<II", data, at)
        if kind == 0x19:
            parts.append(struct.unpack_from("<QQQQ", data, at + 24))
        at += size
    memory = loaded(data, parts)
    pointers = {int(place, 16): number(memory, int(place, 16)) for place in REBASED.findall(said("llvm-objdump", "--macho", "--rebase", path))}
    bound = said("llvm-objdump", "--macho", "--bind", "--lazy-bind", path)
    pointers.update((int(place, 16), name) for place, name in BOUND.findall(bound))
    exports = {name: int(place, 16) for place, name in EXPORTED.findall(said("llvm-objdump", "--macho", "--exports-trie", path))}
    return Image(memory, exports, pointers)


def pe(path):
    """The image of a DLL."""
    listed = said("llvm-readobj", "--file-headers", "--sections", "--coff-exports", "--coff-imports", "--coff-basereloc", path)
    sections = [[int(word, 0) for word in row] for row in SECTION.findall(listed)]
    memory = loaded(common.read_bytes(path), [(address, size, offset, min(size, in_file)) for size, address, in_file, offset in sections])
    base = int(re.search(r"ImageBase: (\w+)", listed)[1], 0)
    pointers = {int(place, 16): number(memory, int(place, 16)) - base for place in RELOCATED.findall(listed)}
    for slots, symbols in IMPORTED.findall(listed):
        pointers.update((int(slots, 16) + 8 * place, name) for place, name in enumerate(re.findall(r"Symbol: (\w+)", symbols)))
    return Image(memory, {name: int(place, 16) for name, place in NAMED.findall(listed)}, pointers)
