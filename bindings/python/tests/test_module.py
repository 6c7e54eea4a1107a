"""Modules by hand, and the doctests: `python -m unittest discover -s tests -t .`."""
# SPDX-License-Identifier: Apache-2.0 OR MIT
from __future__ import annotations

import array
import concurrent.futures
import copy
import doctest
import io
import mmap
import multiprocessing
import os
import pathlib
import pickle
import shutil
import subprocess
import sys
import tempfile
import tracemalloc
import unittest
from typing import Any

import pulleynavy
from pulleynavy import _library
from pulleynavy import (
    Append,
    ArrayType,
    CoreFrame,
    CoreInstance,
    CoreStack,
    CoreValue,
    CoreValueKind,
    Data,
    DataKind,
    Element,
    ElementKind,
    Event,
    EventKind,
    Export,
    Expression,
    ExternalKind,
    Fault,
    FaultKind,
    Field,
    FunctionType,
    Global,
    HeapKind,
    Import,
    Instruction,
    Keep,
    Limits,
    Memory,
    Module,
    Opcode,
    ParseError,
    Parser,
    Remove,
    Replace,
    Section,
    StructType,
    SubType,
    SymbolFlags,
    SymbolKind,
    Table,
    TargetFeature,
    TypeGroup,
    TypeKind,
    ValueType,
)

HEADER = b"\0asm\1\0\0\0"
FUNCTIONS = HEADER + b"\3\2\1\0\x0a\4\1\2\0\x0b"
I32, I64 = ValueType(TypeKind.I32), ValueType(TypeKind.I64)
# i32.const 0
ZERO = b"\x41\0\x0b"
FUNCREF = ValueType(TypeKind.REF, True, HeapKind.FUNC)


def leb(value: int) -> bytes:
    """A number in LEB128."""
    return bytes([value]) if value < 128 else bytes([value & 0x7F | 0x80]) + leb(value >> 7)


def load_tests(loader: unittest.TestLoader, tests: unittest.TestSuite, pattern: str | None) -> unittest.TestSuite:
    own = (pulleynavy._cursor, pulleynavy._customs, pulleynavy._events, pulleynavy._items, pulleynavy._library, pulleynavy._values)
    for module in (pulleynavy, pulleynavy.module, *own):
        tests.addTests(doctest.DocTestSuite(module))
    return tests


class Items(unittest.TestCase):
    def test_imports_and_those_of_bundles(self) -> None:
        section = b"\2\x1c\3\1m\1a\0\5\1m\1b\2\0\1\1n\0\x7f\2\1c\4\0\3\1d\0\4"
        imports = [
            Import("m", "a", ExternalKind.FUNC, 5),
            Import("m", "b", ExternalKind.MEMORY, Memory(Limits(1, None, False, False), None)),
            Import("n", "c", ExternalKind.TAG, 3),
            Import("n", "d", ExternalKind.FUNC, 4),
        ]
        self.assertEqual(Module(HEADER + section).imports, imports)

    def test_tables_memories_globals_and_tags(self) -> None:
        module = Module(HEADER + b"\4\5\1\x70\1\1\2\5\4\1\3\1\2\x0d\3\1\0\7\6\6\1\x7f\1\x41\0\x0b")
        self.assertEqual(module.tables, [Table(FUNCREF, Limits(1, 2, False, False))])
        self.assertEqual(module.memories, [Memory(Limits(1, 2, False, True), None)])
        self.assertEqual(module.tags, [7])
        self.assertEqual(Module(HEADER + b"\5\4\1\1\0\0").memories, [Memory(Limits(0, 0, False, False), None)])
        self.assertEqual(module.globals, [Global(I32, True, False, Expression(31, ZERO))])

    def test_a_page_of_one_byte(self) -> None:
        self.assertEqual(Module(HEADER + b"\5\4\1\x08\1\0").memories, [Memory(Limits(1, None, False, False), 0)])

    def test_exports(self) -> None:
        module = Module(HEADER + b"\7\x0a\2\2\xc3\xa9\4\5\1a\3\0")
        self.assertEqual(module.exports, [Export("é", ExternalKind.TAG, 5), Export("a", ExternalKind.GLOBAL, 0)])

    def test_segments(self) -> None:
        module = Module(HEADER + b"\x09\x0c\2\1\0\1\5\2\3\x41\0\x0b\0\0\x0b\x0b\2\1\2xy\0\x41\0\x0b\1z")
        self.assertEqual(module.elements, [Element(ElementKind.PASSIVE, None, 1, None, (5,)), Element(ElementKind.ACTIVE, 3, 0, Expression(17, ZERO), ())])
        self.assertEqual(module.data, [Data(DataKind.PASSIVE, None, b"xy"), Data(DataKind.ACTIVE, 0, b"z", Expression(30, ZERO))])

    def test_an_element_segment_that_names_table_0(self) -> None:
        module = Module(HEADER + b"\x09\x08\1\2\0\x41\0\x0b\0\0")
        self.assertEqual(module.elements, [Element(ElementKind.ACTIVE, 0, 0, Expression(13, ZERO), ())])

    def test_functions_and_their_bodies(self) -> None:
        module = Module(FUNCTIONS)
        self.assertEqual((module.functions, module.bodies, module.start), ([0], [range(16, 18)], None))
        self.assertEqual(module.sections, [Section(3, 10, 12, 1), Section(10, 14, 18, 1)])

    def test_a_data_count_section(self) -> None:
        self.assertEqual(Module(HEADER + b"\x0c\1\1\x0b\3\1\1\0").data_count, 1)
        self.assertIsNone(Module(HEADER).data_count)

    def test_names(self) -> None:
        module = Module(HEADER + b"\0\x10\4name\0\2\1m\1\5\1\7\2\xc3\xa9\0\2\1x")
        self.assertEqual((module.names.module, module.names.functions), ("m", {7: "é"}))
        self.assertEqual([section.name for section in module.custom_sections], ["name", "x"])
        self.assertEqual(Module(HEADER).names.functions, {})

    def test_bytes_after_the_name_of_a_module(self) -> None:
        with self.assertRaises(Fault) as caught:
            Module(HEADER + b"\0\x09\4name\0\2\0\0").names.module
        self.assertEqual((caught.exception.kind, caught.exception.offset), (FaultKind.NAME_TRAILING, 18))

    def test_names_of_parts_and_of_other_spaces(self) -> None:
        section = b"\0\x19\4name\2\6\1\7\1\0\1p\4\4\1\0\1t\x0b\4\1\2\1e"
        names = Module(HEADER + section).names
        self.assertEqual((names.locals, names.types, names.tags), ({7: {0: "p"}}, {0: "t"}, {2: "e"}))
        self.assertEqual((names.module, names.functions, names.labels, repr(names)), (None, {}, {}, "<Names: 3 subsections>"))

    def test_a_cursor_stays_in_its_bytes(self) -> None:
        items = pulleynavy.Items(b"\5\7", 100).skip(1)
        for size, count in ((-1, 0), (2, 0), (0, -1), (0, 1 << 32), (1 << 64, 0)):
            with self.assertRaises(ValueError):
                items.skip(size, count)
        self.assertEqual((items.position, items.read_number(), items.skip(0).position), (1, 7, 2))

    def test_lists_that_follow_each_other(self) -> None:
        items = pulleynavy.Items(b"\1\5\2\7\x09", 100)
        self.assertEqual((items._indices(), items._indices(), items.position), ((5,), (7, 9), 5))

    def test_methods_that_take_the_name_of_a_call_are_deprecated(self) -> None:
        with self.assertWarns(DeprecationWarning):
            self.assertEqual(pulleynavy.Items(b"\5", 100).read("number").value, 5)
        with self.assertWarns(DeprecationWarning):
            self.assertEqual([one.value for one in pulleynavy.Items(b"\1\5", 100).counted().all("numbers")], [5])

    def test_many_items(self) -> None:
        names = [b"%d" % number for number in range(10_000)]
        content = b"\x90\x4e" + b"".join(bytes([len(name)]) + name + b"\0\0" for name in names)
        size = bytes([len(content) & 0x7F | 0x80, len(content) >> 7 & 0x7F | 0x80, len(content) >> 14])
        module = Module(HEADER + b"\7" + size + content)
        self.assertEqual([one.name.encode() for one in module.exports], names)
        malformed = Module(HEADER + b"\7" + size + content[:-2] + b"\5\0")
        with self.assertRaises(Fault) as caught:
            malformed.exports
        self.assertEqual(caught.exception.offset, 8 + 4 + len(content) - 2)

    def test_a_malformed_item_at_each_end_of_a_batch(self) -> None:
        for place in (1, 63, 64, 4094, 4095, 4096, 4097, 8191, 8192):
            item, count = b"\1a\0\0", 8200
            content = leb(count) + item * (place - 1) + b"\1a\5\0" + item * (count - place)
            exports = next(Module(HEADER + b"\7" + leb(len(content)) + content)._lists(7)).exports()
            found: list[Export] = []
            with self.assertRaises(ParseError) as caught:
                for one in exports:
                    found.append(one)
            self.assertEqual((len(found), caught.exception.offset), (place - 1, 8 + 1 + 3 + 2 + 4 * (place - 1) + 2))

    def test_entries_out_of_order(self) -> None:
        names = pulleynavy.Items(b"\2\1\1a\1\1b", 100).counted().namings()
        with self.assertRaises(Fault) as caught:
            list(names)
        self.assertEqual((caught.exception.kind, caught.exception.offset), (FaultKind.NAMES_ORDER, 104))

    def test_a_component_has_no_items(self) -> None:
        module = Module(b"\0asm\x0d\0\1\0\1\1\0")
        self.assertTrue(module.is_component)
        self.assertEqual((module.exports, module.sections), ([], [Section(1, 10, 11, None)]))


class Types(unittest.TestCase):
    # A function type; a group of a structure with an i8 and an array that extends it.
    SECTION = b"\1\x15\2\x60\2\x7f\x70\1\x7e\x4e\2\x50\0\x5f\1\x78\1\x4f\1\1\x5e\x7f\0"

    def test_types(self) -> None:
        module = Module(HEADER + self.SECTION)
        function = SubType(FunctionType((I32, FUNCREF), (I64,)))
        structure = SubType(StructType((Field(ValueType(TypeKind.I8), True),)), final=False)
        array = SubType(ArrayType(Field(I32, False)), supertype=1)
        self.assertEqual(module.type_groups, [TypeGroup((function,), False), TypeGroup((structure, array), True)])
        self.assertEqual(module.types, [function, structure, array])
        self.assertEqual(str(function.type), "(i32, (ref null func)) -> (i64)")
        self.assertEqual(str(ValueType(TypeKind.REF, False, HeapKind.CONCRETE, 5)), "(ref 5)")

    def test_types_of_functions(self) -> None:
        imports = b"\2\x0e\2\1m\1g\3\x7f\0\1m\1f\0\0"
        functions = b"\3\4\3\0\1\5\x0a\x0a\3\2\0\x0b\2\0\x0b\2\0\x0b"
        module = Module(HEADER + self.SECTION + imports + functions)
        self.assertEqual((module.functions, [str(module.function_type(index)) for index in (0, 1)]), ([0, 1, 5], ["(i32, (ref null func)) -> (i64)"] * 2))
        # The content of the code section begins at offset 55.
        self.assertEqual([module.function_body(index) for index in range(4)], [None, range(57, 59), range(60, 62), range(63, 65)])
        with self.assertRaises(TypeError):
            module.function_type(2)
        for index in (-1, 3, 4):
            with self.assertRaises(IndexError):
                module.function_type(index)
        for index in (-1, 4):
            with self.assertRaises(IndexError):
                module.function_body(index)

    def test_exact_imports_are_functions(self) -> None:
        # An exact function, a tag and a function; then a function that the module defines.
        imports = b"\2\x14\3\1m\1e\x20\0\1m\1t\4\0\0\1m\1f\0\0"
        module = Module(HEADER + self.SECTION + imports + b"\3\2\1\0\x0a\4\1\2\0\x0b")
        self.assertEqual([one.kind for one in module.imports], [ExternalKind.FUNC_EXACT, ExternalKind.TAG, ExternalKind.FUNC])
        self.assertEqual([module.function_body(index) is None for index in range(3)], [True, True, False])
        self.assertEqual({str(module.function_type(index)) for index in range(3)}, {"(i32, (ref null func)) -> (i64)"})
        with self.assertRaises(IndexError):
            module.function_body(3)

    def test_a_malformed_type_and_trailing_bytes(self) -> None:
        for section, kind, offset in ((b"\1\2\1\x40", FaultKind.LEADING_BYTE, 11), (b"\1\5\1\x60\0\0\0", FaultKind.SIZE_MISMATCH, 14)):
            with self.assertRaises(ParseError) as caught:
                Module(HEADER + section).types
            self.assertEqual((caught.exception.kind, caught.exception.offset), (kind, offset))

    def test_instructions(self) -> None:
        cases = {
            b"\x41\x7f": Instruction(Opcode.I32_CONST, integer=-1),
            b"\x42\x80\1": Instruction(Opcode.I64_CONST, integer=128),
            b"\x43\0\0\x80\x3f": Instruction(Opcode.F32_CONST, bits=0x3F800000),
            b"\x44" + b"\1" * 8: Instruction(Opcode.F64_CONST, bits=0x0101010101010101),
            b"\x23\5": Instruction(Opcode.GLOBAL_GET, 5),
            b"\xd2\5": Instruction(Opcode.REF_FUNC, 5),
            b"\xd0\x70": Instruction(Opcode.REF_NULL, heap=HeapKind.FUNC),
            b"\xd0\5": Instruction(Opcode.REF_NULL, 5, HeapKind.CONCRETE),
            b"\x6a": Instruction(Opcode.I32_ADD),
            b"\xfb\0\5": Instruction(Opcode.STRUCT_NEW, 5),
            b"\xfb\x08\5\2": Instruction(Opcode.ARRAY_NEW_FIXED, 5, size=2),
            b"\xfb\x1c": Instruction(Opcode.REF_I31),
            b"\xfd\x0c" + bytes(range(16)): Instruction(Opcode.V128_CONST, vector=bytes(range(16))),
        }
        for raw, instruction in cases.items():
            self.assertEqual(Expression(100, raw + b"\x0b").instructions, (instruction,))
        every = Expression(100, b"".join(cases) + b"\x0b")
        self.assertEqual((every.instructions, every.end), (tuple(cases.values()), 101 + len(b"".join(cases))))
        with self.assertRaises(ParseError) as caught:
            Expression(100, b"\x41\0").instructions
        self.assertEqual(caught.exception.offset, 102)

    def test_expressions_of_tables_and_elements(self) -> None:
        module = Module(HEADER + b"\4\x09\1\x40\0\x70\0\1\xd0\x70\x0b\x09\x0a\1\5\x70\2\xd0\x70\x0b\xd2\0\x0b")
        null = Expression(16, b"\xd0\x70\x0b")
        self.assertEqual(module.tables, [Table(FUNCREF, Limits(1, None, False, False), null)])
        expressions = Expression(25, b"\xd0\x70\x0b"), Expression(28, b"\xd2\0\x0b")
        self.assertEqual(module.elements, [Element(ElementKind.PASSIVE, None, 2, None, None, expressions, FUNCREF)])


class Customs(unittest.TestCase):
    def custom(self, name: bytes, data: bytes) -> Module:
        return Module(HEADER + bytes([0, 1 + len(name) + len(data), len(name)]) + name + data)

    def test_target_features(self) -> None:
        module = self.custom(b"target_features", b"\3+\4simd-\7atomics=\1x")
        self.assertEqual(module.target_features, [TargetFeature("+", "simd"), TargetFeature("-", "atomics"), TargetFeature("=", "x")])
        # The data begins at offset 26.
        cases = [(b"\1", FaultKind.UNEXPECTED_EOF, 27), (b"\1+\2x", FaultKind.UNEXPECTED_EOF, 29)]
        cases += [(b"\1+\1xy", FaultKind.SIZE_MISMATCH, 30), (b"\0y", FaultKind.SIZE_MISMATCH, 27), (b"", FaultKind.UNEXPECTED_EOF, 26)]
        for data, kind, offset in cases:
            with self.assertRaises(ParseError) as caught:
                self.custom(b"target_features", data).target_features
            self.assertEqual((caught.exception.kind, caught.exception.offset), (kind, offset))
        self.assertEqual(self.custom(b"target_features", b"\2*\1x\xff\1y").target_features, [TargetFeature("*", "x"), TargetFeature("\xff", "y")])
        self.assertEqual(Module(HEADER).target_features, [])

    def test_sections_that_are_not_there(self) -> None:
        module = Module(HEADER)
        self.assertEqual((module.producers, module.linking, module.symbols, module.relocations), ({}, None, (), []))
        self.assertEqual((module.dylink, module.branch_hints, module.core_process, module.core_stacks), (None, {}, None, []))

    def test_sections_that_come_twice(self) -> None:
        # Two symbol tables: of function 5, which has no name, and of section 7.
        linking = b"\2\x08\4\1\0\x10\5\x08\4\1\3\0\7"
        self.assertEqual([one.index for one in self.custom(b"linking", linking).symbols], [5, 7])
        section = b"\0\x13\x09producers\1\3sdk\1\1e\0"
        self.assertEqual([one.name for one in Module(HEADER + section * 2).producers["sdk"]], ["e", "e"])

    def test_symbols(self) -> None:
        # Data d in segment 2, at 3 and of 4 bytes; data u, which is not defined; function 5, whose import has the name.
        table = b"\3\1\0\1d\2\3\4\1\x10\1u\0\x10\5"
        symbols = self.custom(b"linking", b"\2\x08" + bytes([len(table)]) + table).symbols
        data, undefined, function = (tuple(one) for one in symbols)
        self.assertEqual(data, (SymbolKind.DATA, SymbolFlags(0), 2, "d", 3, 4))
        self.assertEqual(undefined, (SymbolKind.DATA, SymbolFlags.UNDEFINED, 0, "u", None, None))
        self.assertEqual(function, (SymbolKind.FUNC, SymbolFlags.UNDEFINED, 5, None, None, None))

    def test_relocations(self) -> None:
        # Of section 3: numbers in LEB128 take 5 or 10 bytes, others 4 or 8.
        data = b"\3\4\0\7\1\5\x08\2\x7f\x0e\x09\3\1\x10\x0a\4\2"
        (found,) = self.custom(b"reloc.CODE", data).relocations
        rows = [(one.kind.name, one.offset, one.index, one.addend, one.extent) for one in found.relocations]
        wanted = [("FUNCTION_INDEX_LEB", 7, 1, 0, 5), ("MEMORY_ADDR_I32", 8, 2, -1, 4), ("MEMORY_ADDR_LEB64", 9, 3, 1, 10)]
        self.assertEqual((found.section, rows), (3, wanted + [("MEMORY_ADDR_I64", 10, 4, 2, 8)]))

    def test_a_core_dump(self) -> None:
        self.assertEqual(self.custom(b"core", b"\0\1p").core_process, "p")
        self.assertEqual(self.custom(b"coremodules", b"\2\0\1a\0\1b").core_modules, ["a", "b"])
        self.assertEqual(self.custom(b"coreinstances", b"\1\0\2\1\0\1\3").core_instances, [CoreInstance(2, (0,), (3,))])
        frame = CoreFrame(4, 42, 51, (CoreValue(CoreValueKind.I32, 1),), (CoreValue(CoreValueKind.MISSING, None),))
        self.assertEqual(self.custom(b"corestack", b"\0\1m\1\0\4*3\1\x7f\1\1\1").core_stacks, [CoreStack("m", (frame,))])
        with self.assertRaises(ParseError) as caught:
            self.custom(b"core", b"\0\1pp").core_process
        self.assertEqual((caught.exception.kind, caught.exception.offset), (FaultKind.CUSTOM_TRAILING, 18))


class Faults(unittest.TestCase):
    def test_the_names_of_the_exception(self) -> None:
        self.assertIs(Fault, ParseError)
        self.assertTrue(issubclass(ParseError, ValueError))

    def test_a_module_is_shown_in_one_line(self) -> None:
        self.assertEqual(repr(Module(FUNCTIONS)), "<Module: 18 bytes, 2 sections>")
        self.assertEqual(repr(Module(HEADER + b"\0\2\1x")), "<Module: 12 bytes, 1 section>")

    def test_a_malformed_section_is_a_fault_at_once(self) -> None:
        with self.assertRaises(Fault) as caught:
            Module(HEADER + b"\x80")
        self.assertEqual((caught.exception.kind, caught.exception.offset), (FaultKind.MALFORMED_SECTION_ID, 8))

    def test_a_malformed_item_is_a_fault_when_it_is_read(self) -> None:
        module = Module(HEADER + b"\7\4\1\1a\5")
        with self.assertRaises(Fault) as caught:
            module.exports
        self.assertEqual((caught.exception.kind, caught.exception.offset, caught.exception.number), (FaultKind.LEADING_BYTE, 13, 5))

    def test_offsets_of_faults_in_lists(self) -> None:
        items = pulleynavy.Items(b"\1\x80", 100)
        self.assertEqual(items.read_number(), 1)
        with self.assertRaises(Fault) as caught:
            items.read_number()
        self.assertEqual((caught.exception.kind, caught.exception.offset), (FaultKind.UNEXPECTED_EOF, 102))
        with self.assertRaises(Fault) as caught:
            Module(HEADER + b"\0\x09\4name\1\2\1\5").names.functions
        self.assertEqual((caught.exception.kind, caught.exception.offset), (FaultKind.UNEXPECTED_EOF, 19))

    def test_a_fault_without_a_number_and_one_with_0(self) -> None:
        with self.assertRaises(Fault) as caught:
            Module(HEADER + b"\7\5\2\1a\0\0").exports
        self.assertEqual((caught.exception.kind, caught.exception.number), (FaultKind.UNEXPECTED_EOF, None))
        with self.assertRaises(Fault) as caught:
            Module(HEADER + b"\6\5\1\0\0\x41\x0b").globals
        self.assertEqual((caught.exception.kind, caught.exception.number), (FaultKind.LEADING_BYTE, 0))

    def test_a_truncated_stream(self) -> None:
        for size in range(1, 8):
            with self.assertRaises(Fault):
                list(pulleynavy.events(io.BytesIO(HEADER[:size])))


class Streams(unittest.TestCase):
    def test_chunks_of_each_size_give_the_same_events(self) -> None:
        whole = list(pulleynavy.events(io.BytesIO(FUNCTIONS)))
        self.assertEqual([event.kind for event in whole[:3]], [EventKind.VERSION, EventKind.SECTION, EventKind.CODE])
        self.assertEqual(b"".join(event.raw for event in whole), FUNCTIONS)
        for chunk in range(1, len(FUNCTIONS) + 1):
            self.assertEqual(list(pulleynavy.events(io.BytesIO(FUNCTIONS), chunk)), whole)

    def test_a_parser_that_is_fed(self) -> None:
        whole = list(pulleynavy.events(io.BytesIO(FUNCTIONS)))
        for size in range(1, len(FUNCTIONS) + 1):
            parser = Parser()
            found: list[Event] = []
            for at in range(0, len(FUNCTIONS), size):
                found += parser.feed(memoryview(FUNCTIONS)[at : at + size])
            self.assertEqual(found + list(parser.finish()), whole)
            self.assertEqual((list(parser), list(parser.finish())), ([], []))
            with self.assertRaises(ValueError):
                parser.feed(b"")

    def test_a_chunk_counts_before_its_events_are_read(self) -> None:
        parser = Parser()
        parser.feed(FUNCTIONS[:9])
        parser.feed(FUNCTIONS[9:])
        self.assertEqual([event.kind.name for event in parser], ["VERSION", "SECTION", "CODE", "BODY"])

    def test_a_parser_reports_a_fault_again(self) -> None:
        parser = Parser()
        for _ in range(2):
            with self.assertRaises(ParseError) as caught:
                list(parser.feed(b"wasm"))
            self.assertEqual(caught.exception.kind, FaultKind.BAD_MAGIC)

    def test_bodies_that_are_skipped(self) -> None:
        # Three bodies, then a custom section.
        stream = HEADER + b"\3\4\3\0\0\0\x0a\x0b\3\2\0\x0b\3\0\1\x0b\2\0\x0b" + b"\0\2\1x"
        for size in range(1, len(stream) + 1):
            for kind, kept in ((EventKind.CODE, 0), (EventKind.BODY, 1)):
                parser, found, skipped = Parser(), [], 0
                for at in range(0, len(stream), size):
                    for event in parser.feed(stream[at : at + size]):
                        found.append(event.kind.name)
                        skipped += parser.skip() if event.kind is kind else 0
                found += [event.kind.name for event in parser.finish()]
                self.assertEqual(found, ["VERSION", "SECTION", "CODE"] + ["BODY"] * kept + ["CUSTOM", "END"])
                self.assertEqual(skipped, 10 - 3 * kept)
        self.assertEqual(Parser().skip(), 0)

    def test_a_stream_that_ends_in_skipped_bytes(self) -> None:
        parser = Parser()
        for event in parser.feed(FUNCTIONS[:-1]):
            if event.kind is EventKind.CODE:
                self.assertEqual(parser.skip(), 3)
        with self.assertRaises(ParseError) as caught:
            list(parser.finish())
        self.assertEqual((caught.exception.kind, caught.exception.offset), (FaultKind.UNEXPECTED_EOF, 15))

    def test_parts_that_are_skipped(self) -> None:
        stream = HEADER + b"\1\5\1\x60\0\1\x7f\3\2\1\0\x0a\6\1\4\0\x41\0\x0b\0\5\2ab\1\2\x7f\2\0\0"

        def parts(size: int, skips: bool) -> tuple[list[tuple[object, ...]], int]:
            parser, skipped = Parser(), 0
            found: list[tuple[object, ...]] = []
            for at in range(0, len(stream), size):
                for event in parser.feed(stream[at : at + size]):
                    name = event.name if event.kind is EventKind.CUSTOM else ""
                    found.append((event.kind, event.id, event.count, event.start, event.end, name))
                part = parser.skip_part() if skips else None
                if part:
                    found.append((part.kind, part.id, part.count, part.start, part.end, part.name))
                    self.assertIsNone(parser.skip_part())
                    skipped += 1
            found += [(event.kind, event.id, event.count, event.start, event.end, "") for event in parser.finish()]
            return found, skipped

        for size in range(1, len(stream) + 1):
            self.assertEqual(parts(size, True)[0], parts(len(stream), False)[0])
        self.assertEqual([parts(size, True)[1] for size in (1, 3, 7, len(stream))], [5, 5, 1, 0])

    def test_a_stream_that_ends_in_a_skipped_part(self) -> None:
        parser = Parser()
        self.assertEqual(len(list(parser.feed(HEADER + b"\0\x64\1a"))), 1)
        self.assertEqual(parser.skip_part(), pulleynavy.SkippedPart(EventKind.CUSTOM, 0, 0, 10, 110, "a"))
        self.assertEqual(list(parser.feed(bytes(97))), [])
        with self.assertRaises(ParseError) as caught:
            list(parser.finish())
        self.assertEqual((caught.exception.kind, caught.exception.offset), (FaultKind.UNEXPECTED_EOF, 10))

    def test_parts_that_are_skipped_after_the_end_of_input(self) -> None:
        parser = Parser()
        list(parser.feed(HEADER + b"\0\x64\1a"))
        for skips in (False, True):
            if skips:
                self.assertIsNotNone(parser.skip_part())
            with self.assertRaises(ParseError) as caught:
                list(parser.finish())
            self.assertEqual((caught.exception.kind, caught.exception.offset), (FaultKind.UNEXPECTED_EOF, 10))
        self.assertIsNone(parser.skip_part())
        ended = Parser()
        self.assertEqual(len(list(ended.feed(HEADER))) + len(list(ended.finish())), 2)
        self.assertIsNone(ended.skip_part())
        wrong = Parser()
        with self.assertRaises(ParseError):
            list(wrong.feed(HEADER + b"\x80\1"))
        self.assertIsNone(wrong.skip_part())

    def test_skipped_bytes_are_not_kept(self) -> None:
        size = 5_000_000
        content = b"\1" + bytes([size - 5 & 0x7F | 0x80, size - 5 >> 7 & 0x7F | 0x80, size - 5 >> 14 & 0x7F | 0x80, size - 5 >> 21])
        head = HEADER + b"\3\2\1\0\x0a" + bytes([size & 0x7F | 0x80, size >> 7 & 0x7F | 0x80, size >> 14 & 0x7F | 0x80, size >> 21]) + content
        parser, chunk = Parser(), bytes(10_000)
        tracemalloc.start()
        for event in parser.feed(head):
            if event.kind is EventKind.CODE:
                self.assertEqual(parser.skip(), size - 1)
        for _ in range((size - 5) // 10_000):
            self.assertEqual(list(parser.feed(chunk)), [])
        self.assertEqual([event.kind.name for event in parser.feed(bytes((size - 5) % 10_000))], [])
        self.assertEqual([event.kind.name for event in parser.finish()], ["END"])
        _, peak = tracemalloc.get_traced_memory()
        tracemalloc.stop()
        self.assertLess(peak, 100_000)

    def test_a_large_section_makes_the_storage_grow(self) -> None:
        data = b"\1x" + bytes(100_000)
        stream = HEADER + b"\0" + bytes([len(data) & 0x7F | 0x80, len(data) >> 7 & 0x7F | 0x80, len(data) >> 14]) + data
        custom = list(pulleynavy.events(io.BytesIO(stream), 1000))[1]
        self.assertEqual((custom.name, custom.data), ("x", bytes(100_000)))

    def test_memory_for_a_large_part(self) -> None:
        for size in (2_000_000, 2_600_000, 3_000_000):
            stream = io.BytesIO(HEADER + b"\0" + bytes([size & 0x7F | 0x80, size >> 7 & 0x7F | 0x80, size >> 14 & 0x7F | 0x80, size >> 21]) + bytes(size))
            tracemalloc.start()
            for event in pulleynavy.events(stream, 10_000):
                del event
            _, peak = tracemalloc.get_traced_memory()
            tracemalloc.stop()
            self.assertLess(peak, 3 * (size + 10_000))

    def test_what_is_stored_is_kept_when_the_storage_grows(self) -> None:
        data = b"\1x" + bytes(number % 251 for number in range(200_000))
        size = bytes([len(data) & 0x7F | 0x80, len(data) >> 7 & 0x7F | 0x80, len(data) >> 14])
        # A part larger than any chunk, small parts between large ones, and parts of which most bytes are stored first.
        streams = [HEADER + b"\0" + size + data, HEADER + b"\0\1\0\0\7\1bZZZZZ", HEADER + b"".join(b"\0%c\1a" % (2 + count) + b"Z" * count for count in range(100))]
        for stream in streams:
            for chunk in (1, 2, 3, 4, 5, 1000, 65536):
                events = list(pulleynavy.events(io.BytesIO(stream), chunk))
                self.assertEqual(b"".join(event.raw for event in events), stream)
                self.assertEqual((events[-1].kind, events[-2].end), (EventKind.END, len(stream)))

    def test_a_path_in_place_of_a_file(self) -> None:
        with tempfile.NamedTemporaryFile() as file:
            file.write(FUNCTIONS)
            file.flush()
            paths: list[Any] = [file.name, pathlib.Path(file.name)]
            for path in paths:
                self.assertEqual(Module.read(path).functions, [0])
                self.assertEqual(list(pulleynavy.events(path)), list(pulleynavy.events(io.BytesIO(FUNCTIONS))))
        with self.assertRaises(FileNotFoundError):
            Module.read("no such file")

    def test_features_of_a_path_and_of_a_file(self) -> None:
        stream = HEADER + b"\2\x0a\1\1m\0\x7e\0\5\1\1a"
        with tempfile.NamedTemporaryFile() as file:
            file.write(stream)
            file.flush()
            sources: list[Any] = [file.name, pathlib.Path(file.name), io.BytesIO(stream)]
            for source in sources:
                with self.assertRaises(Fault) as caught:
                    Module.read(source, pulleynavy.MEMORY64).imports
                self.assertEqual((caught.exception.kind, caught.exception.offset), (FaultKind.COMPACT_7E, 14))
            self.assertEqual([one.name for one in Module.read(file.name, pulleynavy.COMPACT_IMPORTS).imports], ["a"])

    def test_a_file_in_text_mode_and_bytes_in_place_of_a_file(self) -> None:
        text: Any = io.StringIO("text")
        with self.assertRaisesRegex(TypeError, "binary mode"):
            Module.read(text)
        with self.assertRaisesRegex(TypeError, "binary mode"):
            list(pulleynavy.events(text))
        whole: Any = HEADER
        with self.assertRaisesRegex(TypeError, "Module"):
            Module.read(whole)

    def test_buffers_of_each_kind(self) -> None:
        stream = FUNCTIONS + b"\0\2\1x"
        with tempfile.TemporaryFile() as file:
            file.write(stream)
            file.flush()
            with mmap.mmap(file.fileno(), 0, access=mmap.ACCESS_READ) as mapped:
                wide = memoryview(array.array("H", stream + bytes(len(stream) % 2)))
                buffers: list[Any] = [bytearray(stream), memoryview(stream), memoryview(b"." + stream)[1:], mapped, wide]
                for buffer in buffers:
                    self.assertEqual(pulleynavy.strip(buffer), FUNCTIONS)
                    self.assertEqual(Module(buffer).functions, [0])
        self.assertEqual(pulleynavy.Items(bytearray(b"\5"), 100).read_number(), 5)
        calls: list[Any] = [pulleynavy.strip, Module, lambda data: pulleynavy.Items(data, 0)]
        for wrong in ("text", 5, None):
            for call in calls:
                with self.assertRaises(TypeError):
                    call(wrong)

    def test_strip(self) -> None:
        self.assertEqual(pulleynavy.strip(HEADER + b"\0\5\4name\0\2\1x", keep_names=True), HEADER + b"\0\5\4name")
        with self.assertRaises(Fault):
            pulleynavy.strip(HEADER + b"\x80")

    def test_strip_of_streams_of_each_size(self) -> None:
        names = b"\0\5\4name"
        for size in (0, 1 << 16, 1 << 20, (1 << 20) + 1, 1 << 24):
            other = b"\0" + leb(2 + size) + b"\1x" + bytes(size)
            self.assertEqual(pulleynavy.strip(HEADER + other + names + other, keep_names=True), HEADER + names)
            self.assertEqual(pulleynavy.strip(HEADER + other + names + other), HEADER)

    def test_edit(self) -> None:
        types = b"\1\1\0"
        stream = HEADER + b"\0\2\1a" + types + b"\0\3\1bx\0\2\1a"
        rows: list[tuple[pulleynavy.Edit, bytes]] = [
            (Append("\u03b1", b"yz"), stream + b"\0\5\2\xce\xb1yz"),
            (Replace("a", b"z"), HEADER + b"\0\3\1az" + types + b"\0\3\1bx\0\3\1az"),
            (Replace("c", b"z"), stream),
            (Remove("a"), HEADER + types + b"\0\3\1bx"),
            (Keep("a"), HEADER + b"\0\2\1a" + types + b"\0\2\1a"),
        ]
        for edit, wanted in rows:
            with self.subTest(edit):
                self.assertEqual(pulleynavy.edit(bytearray(stream), [edit]), wanted)
        in_turn: list[pulleynavy.Edit] = [Keep(""), Append("c", b"1"), Append("c", memoryview(b"2")), Replace("c", b""), Append("", b"")]
        self.assertEqual(pulleynavy.edit(stream, iter(in_turn)), HEADER + types + b"\0\2\1c\0\2\1c\0\1\0")
        self.assertEqual(pulleynavy.edit(stream, []), stream)

    def test_edit_that_fails(self) -> None:
        longest = "a" * 100_000
        several: list[list[pulleynavy.Edit]] = [[], [Remove("a")], [Append("a", b"")]]
        for edits in several:
            with self.assertRaises(ParseError) as raised:
                pulleynavy.edit(HEADER + b"\3\2\1\0", edits)
            self.assertEqual((raised.exception.kind.name, raised.exception.offset), ("FUNCTION_WITHOUT_CODE", 12))
        self.assertEqual(len(pulleynavy.edit(HEADER, [Append(longest, b"")])), 8 + 1 + 3 + 3 + 100_000)
        self.assertEqual(pulleynavy.edit(HEADER, [Remove(longest + "a")]), HEADER)
        calls: list[Any] = [lambda name: pulleynavy.edit(HEADER, [Append(name, b"")]), lambda name: pulleynavy.encode_custom(name, b"")]
        for call in calls:
            with self.assertRaisesRegex(ValueError, "too large"):
                call(longest + "a")
            with self.assertRaises(UnicodeEncodeError):
                call("\ud800")
        wrong: Any = ["a", None, Append("a", "text")]  # type: ignore[arg-type]
        for one in wrong:
            with self.assertRaises(TypeError):
                pulleynavy.edit(HEADER, [one])

    def test_encode_custom(self) -> None:
        self.assertEqual(pulleynavy.encode_custom("", b""), b"\0\1\0")
        self.assertEqual(pulleynavy.encode_custom("", bytearray(126)), b"\0\x7f\0" + bytes(126))
        self.assertEqual(pulleynavy.encode_custom("a", bytes(126)), b"\0\x80\1\1a" + bytes(126))
        self.assertEqual(pulleynavy.encode_custom("é\u20ac\U0001f600", b"yz"), b"\0\x0c\x09\xc3\xa9\xe2\x82\xac\xf0\x9f\x98\x80yz")


class Copies(unittest.TestCase):
    def test_copies_of_values(self) -> None:
        module = Module(FUNCTIONS + b"\0\2\1x", pulleynavy.MEMORY64)
        values = [module.sections, module.custom_sections, module.names, list(pulleynavy.events(io.BytesIO(FUNCTIONS))), FUNCREF]
        # Types, a table with an expression, and a global.
        other = Module(HEADER + Types.SECTION + b"\4\x09\1\x40\0\x70\0\1\xd0\x70\x0b\6\6\1\x7f\1\x41\0\x0b")
        values += [other.type_groups, other.tables, other.globals, [one.initial.instructions for one in other.globals if one.initial]]
        copies: list[Any] = [copy.copy, copy.deepcopy, lambda value: pickle.loads(pickle.dumps(value))]
        for copied in copies:
            self.assertEqual([copied(value) for value in values], values)
            same = copied(module)
            self.assertEqual((same.sections, same.functions, same._features), (module.sections, [0], pulleynavy.MEMORY64))

    def test_copies_of_a_fault(self) -> None:
        for stream in (HEADER + b"\x80", b"\0asm\2\0\0\0"):
            with self.assertRaises(Fault) as caught:
                Module(stream)
            fault = caught.exception
            for copied in (copy.copy(fault), copy.deepcopy(fault), pickle.loads(pickle.dumps(fault))):
                self.assertIs(type(copied), Fault)
                self.assertEqual((str(copied), vars(copied)), (str(fault), vars(fault)))

    def test_faults_of_other_processes(self) -> None:
        with multiprocessing.Pool(2) as pool:
            self.assertEqual(pool.map_async(Module, [FUNCTIONS] * 3).get(60)[2].functions, [0])
            with self.assertRaises(Fault) as caught:
                pool.map_async(Module, [FUNCTIONS, HEADER + b"\x80", FUNCTIONS]).get(60)
        self.assertEqual(caught.exception.offset, 8)
        with concurrent.futures.ProcessPoolExecutor(2) as pool:
            fault = pool.submit(Module, HEADER + b"\x80").exception(60)
            self.assertTrue(isinstance(fault, ParseError) and fault.offset == 8)
            self.assertEqual(pool.submit(Module, FUNCTIONS).result(60).functions, [0])


class Program(unittest.TestCase):
    def run_with(self, *arguments: str) -> subprocess.CompletedProcess[str]:
        return subprocess.run([sys.executable, "-m", "pulleynavy", *arguments], capture_output=True, text=True)

    def test_sizes_of_sections(self) -> None:
        with tempfile.NamedTemporaryFile() as file:
            file.write(FUNCTIONS + b"\0\2\1x")
            file.flush()
            done = self.run_with(file.name)
        self.assertEqual(done.returncode, 0)
        self.assertEqual([line.split() for line in done.stdout.splitlines()], [["2", "0xa", "function", "(1)"], ["4", "0xe", "code", "(1)"], ["2", "0x14", "x"]])

    def test_commands(self) -> None:
        stream = FUNCTIONS + b"\0\2\1x"
        with tempfile.NamedTemporaryFile() as file:
            file.write(stream)
            file.flush()
            self.assertEqual(self.run_with("list", file.name).stdout, self.run_with(file.name).stdout)
            self.assertEqual(self.run_with("check", file.name, file.name).returncode, 0)
            words = [sys.executable, "-m", "pulleynavy", "strip", file.name]
            self.assertEqual(subprocess.run(words, stdout=subprocess.PIPE, check=True).stdout, FUNCTIONS)
            words[-1:] = ["--keep-names", file.name]
            self.assertEqual(subprocess.run(words, stdout=subprocess.PIPE, check=True).stdout, FUNCTIONS)
        self.assertEqual(self.run_with("--version").stdout, f"pulleynavy-py {pulleynavy.__version__}\n")

    def piped(self, stream: bytes, *arguments: str, **environment: str) -> subprocess.CompletedProcess[bytes]:
        """What the program writes of a stream that it reads from standard input."""
        words = [sys.executable, "-m", "pulleynavy", *arguments, "-"]
        return subprocess.run(words, input=stream, capture_output=True, env={**os.environ, **environment})

    def test_standard_input_is_binary(self) -> None:
        # A text stream ends at 1A on Windows, and has other ends of lines.
        section = b"\0\6\1x\x1a\r\n\xff"
        done = self.piped(HEADER + section, "list")
        self.assertEqual((done.returncode, done.stdout.split()), (0, [b"6", b"0xa", b"x"]))
        self.assertEqual(self.piped(HEADER + section, "check").returncode, 0)
        kept = b"\0\x09\4name\x1a\2\r\n"
        done = self.piped(HEADER + section + kept, "strip", "--keep-names")
        self.assertEqual((done.returncode, done.stdout), (0, HEADER + kept))
        self.assertEqual(self.piped(HEADER + section + kept, "strip").stdout, HEADER)
        self.assertEqual(self.piped(b"", "check").stderr, b"-: unexpected end-of-file (at offset 0x0)\n")

    def test_names_that_the_encoding_lacks(self) -> None:
        done = self.piped(HEADER + b"\0\4\3\xe2\x82\xac", "list", PYTHONIOENCODING="ascii")
        self.assertEqual((done.returncode, done.stdout.split()[-1], done.stderr), (0, b"\\u20ac", b""))

    @unittest.skipUnless(os.path.exists("/dev/full"), "there is no device that is full")
    def test_a_full_device_is_status_3(self) -> None:
        for command in ("list", "strip"):
            with open("/dev/full", "wb") as full:
                words = [sys.executable, "-m", "pulleynavy", command, "-"]
                done = subprocess.run(words, input=FUNCTIONS, stdout=full, stderr=subprocess.PIPE)
            self.assertEqual((done.returncode, done.stderr), (3, b"pulleynavy-py: No space left on device\n"))

    def test_check_reads_all_items_and_all_files(self) -> None:
        cases = {
            b"\7\4\1\1a\5": "invalid leading byte for external kind: 5 (at offset 0xd)",
            b"\0\x09\4name\1\2\1\5": "unexpected end-of-file (at offset 0x13)",
            b"\0\x12\x0ftarget_features\1*": "unexpected end-of-file (at offset 0x1c)",
        }
        with tempfile.TemporaryDirectory() as folder:
            paths = [os.path.join(folder, str(number)) for number in range(len(cases))]
            for path, section in zip(paths, cases):
                pathlib.Path(path).write_bytes(HEADER + section)
            done = self.run_with("check", *paths)
        self.assertEqual((done.returncode, done.stdout), (1, ""))
        self.assertEqual(done.stderr.splitlines(), [f"{path}: {text}" for path, text in zip(paths, cases.values())])

    def test_check_of_good_and_bad_files(self) -> None:
        """The exit status is the greatest of all files, in any order."""
        with tempfile.TemporaryDirectory() as folder:
            good, bad, missing = (os.path.join(folder, name) for name in ("good", "bad", "missing"))
            pathlib.Path(good).write_bytes(FUNCTIONS)
            pathlib.Path(bad).write_bytes(HEADER + b"\7\4\1\1a\5")
            for paths, status in (((good, good), 0), ((bad, good), 1), ((good, bad), 1), ((good, bad, good), 1), ((missing, bad, good), 3), ((bad, missing), 3)):
                done = self.run_with("check", *paths)
                lines = [line.split(": ")[0] for line in done.stderr.splitlines()]
                self.assertEqual((done.returncode, done.stdout, lines), (status, "", [path for path in paths if path != good]))

    def test_check_prints_the_first_fault_of_a_stream(self) -> None:
        """That of an item comes before that of a section after it, and sections come in their order."""
        malformed = b"\7\4\1\1a\5"
        producers, core = b"\0\x0a\x09producers", b"\0\x06\4core\1"
        for sections, offset in ((malformed + b"\x80", 13), (core + producers, 15), (producers + core, 20), (core + malformed, 15), (malformed + core, 13)):
            with tempfile.NamedTemporaryFile() as file:
                file.write(HEADER + sections)
                file.flush()
                done = self.run_with("check", file.name)
            self.assertEqual((done.returncode, done.stderr.rstrip().rpartition(" ")[2]), (1, f"{offset:#x})"))

    def test_dump_runs_the_program_on_the_path(self) -> None:
        words = [sys.executable, "-m", "pulleynavy", "dump", "--names", "a b"]
        with tempfile.TemporaryDirectory() as folder:
            environment = {**os.environ, "PATH": folder}
            done = subprocess.run(words, capture_output=True, text=True, env=environment)
            self.assertEqual((done.returncode, done.stderr), (3, "pulleynavy-py: there is no program wasm_dump on the path\n"))
            program = pathlib.Path(folder, "wasm_dump")
            program.write_text('#!/bin/sh\nprintf "%s|" "$@"\nexit 5\n')
            program.chmod(0o755)
            done = subprocess.run(words, capture_output=True, text=True, env=environment)
        self.assertEqual((done.returncode, done.stdout), (5, "--names|a b|"))

    def test_errors(self) -> None:
        for words in ("", "list", "a b", "--wrong", "strip"):
            self.assertEqual(self.run_with(*words.split()).returncode, 2)
        for command in ("list", "check", "strip"):
            self.assertEqual(self.run_with(command, "no such file").returncode, 3)
            with tempfile.NamedTemporaryFile() as file:
                done = self.run_with(command, file.name)
            text = f"{file.name}: unexpected end-of-file (at offset 0x0)\n"
            self.assertEqual((done.returncode, done.stdout, done.stderr), (1, "", text))

    def test_a_closed_pipe_ends_quietly(self) -> None:
        with tempfile.NamedTemporaryFile() as file:
            file.write(HEADER + b"\0\3\1aZ" * 100_000)
            file.flush()
            words = [sys.executable, "-m", "pulleynavy", file.name]
            with subprocess.Popen(words, stdout=subprocess.PIPE, stderr=subprocess.PIPE) as child:
                assert child.stdout and child.stderr
                child.stdout.readline()
                child.stdout.close()
                self.assertEqual((child.stderr.read(), child.wait()), (b"", 3))


# Starts Python as on another system, and passes the remaining arguments to the program. What Python imports is that of this system.
ELSEWHERE = """import argparse, ctypes, os, platform, runpy, shutil, sys
sys.platform = sys.argv[1]
sys.argv[1:] = sys.argv[2:]
runpy.run_module("pulleynavy", run_name="__main__", alter_sys=True)
"""


class Systems(unittest.TestCase):
    """A copy of the package, on systems that are made up."""

    def setUp(self) -> None:
        folder = tempfile.TemporaryDirectory()
        self.addCleanup(folder.cleanup)
        self.folder = pathlib.Path(folder.name)
        self.library = pathlib.Path(_library.found(None)[0])
        self.package = self.folder / "pulleynavy"
        shutil.copytree(pathlib.Path(_library.__file__).parent, self.package, ignore=shutil.ignore_patterns("*.so*", "*.dll", "*.dylib", "__pycache__"))
        (self.folder / "a.wasm").write_bytes(FUNCTIONS)

    def run_on(self, system: str, **environment: str) -> tuple[int, str, str]:
        """The exit status of a list of a module there, and what it prints."""
        words = [sys.executable, "-B", "-c", ELSEWHERE, system, "list", "a.wasm"]
        settings = {name: value for name, value in os.environ.items() if name != "PULLEYNAVY_LIB"}
        done = subprocess.run(words, capture_output=True, text=True, cwd=self.folder, env={**settings, **environment})
        return done.returncode, done.stdout, done.stderr

    def test_the_library_of_each_system(self) -> None:
        on_linux = _library.name_on("linux")
        self.assertRegex(on_linux, r"^libpulleynavy\.so(\.\d+)+$")
        for system, name in (("win32", "pulleynavy.dll"), ("darwin", "libpulleynavy.dylib"), ("linux", on_linux), ("freebsd14", on_linux)):
            with self.subTest(system=system):
                shutil.copyfile(self.library, self.package / name)
                status, output, errors = self.run_on(system)
                self.assertEqual((status, len(output.splitlines()), errors), (0, 2, ""))
                os.rename(self.package / name, self.folder / name)
                self.assertEqual(self.run_on(system, PULLEYNAVY_LIB=str(self.folder))[0], 0)
                os.remove(self.folder / name)

    def test_what_is_missing_is_one_sentence(self) -> None:
        for system, name in (("win32", "pulleynavy.dll"), ("darwin", "libpulleynavy.dylib")):
            with self.subTest(system=system):
                status, output, errors = self.run_on(system)
                self.assertEqual((status, output, len(errors.splitlines())), (3, "", 1))
                self.assertIn(f"pulleynavy-py: there is no {name} for {system} on ", errors)
                self.assertIn("set PULLEYNAVY_LIB", errors)
                (self.package / name).write_bytes(b"MZ")
                status, output, errors = self.run_on(system)
                self.assertEqual((status, output, len(errors.splitlines())), (3, "", 1))
                self.assertIn(f"{name} is not for {system} on ", errors)
                status, output, errors = self.run_on(system, PULLEYNAVY_LIB="a.wasm")
                self.assertEqual((status, output, len(errors.splitlines())), (3, "", 1))
                self.assertIn("a.wasm is no library of pulleynavy", errors)


if __name__ == "__main__":
    unittest.main()
