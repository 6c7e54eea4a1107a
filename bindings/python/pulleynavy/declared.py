"""The declarations of the library, written by tools/generate header from its sources."""
# SPDX-License-Identifier: Apache-2.0 OR MIT
from __future__ import annotations

import ctypes
import enum
from typing import Any

VERSION = "0.16.0"


class EventKind(enum.IntEnum):
    """The kind of an event."""

    NEED_MORE = 0
    VERSION = 1
    SECTION = 2
    START = 3
    DATA_COUNT = 4
    CODE = 5
    BODY = 6
    CUSTOM = 7
    UNKNOWN = 8
    END = 9
    FAULT = 10


class FaultKind(enum.IntEnum):
    """The kind of a fault."""

    OUT_OF_MEMORY = 1
    UNEXPECTED_EOF = 2
    OFFSET_RANGE = 3
    BAD_MAGIC = 4
    UNKNOWN_VERSION = 5
    MAGIC_AT_SECTION = 6
    MALFORMED_SECTION_ID = 7
    SECTION_TOO_LARGE = 8
    OUT_OF_ORDER = 9
    START_CONTENT = 10
    DATA_COUNT_CONTENT = 11
    FUNCTION_CODE_DIFFER = 12
    FUNCTION_WITHOUT_CODE = 13
    CODE_WITHOUT_FUNCTION = 14
    DATA_COUNT_DIFFER = 15
    DATA_COUNT_WITHOUT_DATA = 16
    TRAILING_CODE = 17
    NUMBER_TOO_LONG = 18
    NUMBER_TOO_LARGE = 19
    STRING_SIZE = 20
    MALFORMED_UTF8 = 21
    INVALID_U7 = 22
    INVALID_BOOL = 23
    SIZE_MISMATCH = 24
    LEADING_BYTE = 25
    DATA_FLAGS = 26
    ELEMENT_FLAGS = 27
    ELEMENT_FUNCTION_ONLY = 28
    EXACT_EXPORT = 29
    GLOBAL_FLAGS = 30
    COMPACT_7F = 31
    COMPACT_7E = 32
    MEMORY_FLAGS = 33
    PAGE_SIZE = 34
    TABLE_ENCODING = 35
    TABLE_FLAGS = 36
    TAG_ATTRIBUTES = 37
    NAMES_ORDER = 38
    INDIRECT_ORDER = 39
    NAME_SECTION_ORDER = 40
    NAME_TRAILING = 41
    PRODUCERS_FIELD = 42
    LINKING_VERSION = 43
    CORE_START_BYTE = 44
    CORE_VALUE = 45
    CUSTOM_TRAILING = 46
    NOT_CONSTANT = 47
    SUPERTYPES = 48


class NumberKind(enum.IntEnum):
    """The kind of the number of NUMBER_TOO_LONG and NUMBER_TOO_LARGE."""

    VAR_U32 = 0
    VAR_I32 = 1
    VAR_U64 = 2
    VAR_I64 = 3
    VAR_S33 = 4


class Lead(enum.IntEnum):
    """What the byte of LEADING_BYTE should have begun."""

    BRANCH_HINT = 0
    BRANCH_TAKEN = 1
    COMDAT_SYMBOL = 2
    SYMBOL = 3
    RELOC = 4
    EXTERNAL = 5
    VALUE = 6
    REFERENCE = 7
    HEAP = 8
    COMPOSITE = 9
    MUTABILITY = 10


class CoreStart(enum.IntEnum):
    """The part of a core dump that the byte of CORE_START_BYTE should have begun."""

    NAME = 0
    MODULE = 1
    INSTANCE = 2
    STACK_NAME = 3
    FRAME = 4


class SectionId(enum.IntEnum):
    """The id of a section of a module."""

    CUSTOM = 0
    TYPE = 1
    IMPORT = 2
    FUNCTION = 3
    TABLE = 4
    MEMORY = 5
    GLOBAL = 6
    EXPORT = 7
    START = 8
    ELEMENT = 9
    CODE = 10
    DATA = 11
    DATA_COUNT = 12
    TAG = 13


class TypeKind(enum.IntEnum):
    """The kind of a type."""

    I32 = 0
    I64 = 1
    F32 = 2
    F64 = 3
    V128 = 4
    REF = 5
    I8 = 6
    I16 = 7


class HeapKind(enum.IntEnum):
    """The type of what a reference refers to."""

    FUNC = 0
    EXTERN = 1
    ANY = 2
    EQ = 3
    I31 = 4
    STRUCT = 5
    ARRAY = 6
    EXN = 7
    NONE = 8
    NO_EXTERN = 9
    NO_FUNC = 10
    NO_EXN = 11
    CONCRETE = 12


class CompositeKind(enum.IntEnum):
    """The kind of a composite type."""

    FUNC = 0
    ARRAY = 1
    STRUCT = 2


class ExternalKind(enum.IntEnum):
    """The kind of an import or export."""

    FUNC = 0
    TABLE = 1
    MEMORY = 2
    GLOBAL = 3
    TAG = 4
    FUNC_EXACT = 5


class ImportKind(enum.IntEnum):
    """The kind of an item of an import section."""

    SINGLE = 0
    BUNDLE = 1
    BUNDLE_OF_TYPE = 2


class ElementKind(enum.IntEnum):
    """The kind of an element segment."""

    PASSIVE = 0
    ACTIVE = 1
    DECLARED = 2


class DataKind(enum.IntEnum):
    """The kind of a data segment."""

    PASSIVE = 0
    ACTIVE = 1


class CustomKind(enum.IntEnum):
    """The kind of a custom section, by its name."""

    UNKNOWN = 0
    NAME = 1
    BRANCH_HINTS = 2
    PRODUCERS = 3
    DYLINK0 = 4
    LINKING = 5
    RELOC = 6
    CORE = 7
    CORE_MODULES = 8
    CORE_INSTANCES = 9
    CORE_STACK = 10


class SymbolKind(enum.IntEnum):
    """The kind of a symbol."""

    FUNC = 0
    DATA = 1
    GLOBAL = 2
    SECTION = 3
    EVENT = 4
    TABLE = 5


class ComdatKind(enum.IntEnum):
    """The kind of a symbol of a comdat."""

    DATA = 0
    FUNC = 1
    GLOBAL = 2
    EVENT = 3
    TABLE = 4
    SECTION = 5


class RelocationKind(enum.IntEnum):
    """The type of a relocation."""

    FUNCTION_INDEX_LEB = 0
    TABLE_INDEX_SLEB = 1
    TABLE_INDEX_I32 = 2
    MEMORY_ADDR_LEB = 3
    MEMORY_ADDR_SLEB = 4
    MEMORY_ADDR_I32 = 5
    TYPE_INDEX_LEB = 6
    GLOBAL_INDEX_LEB = 7
    FUNCTION_OFFSET_I32 = 8
    SECTION_OFFSET_I32 = 9
    EVENT_INDEX_LEB = 10
    MEMORY_ADDR_REL_SLEB = 11
    TABLE_INDEX_REL_SLEB = 12
    GLOBAL_INDEX_I32 = 13
    MEMORY_ADDR_LEB64 = 14
    MEMORY_ADDR_SLEB64 = 15
    MEMORY_ADDR_I64 = 16
    MEMORY_ADDR_REL_SLEB64 = 17
    TABLE_INDEX_SLEB64 = 18
    TABLE_INDEX_I64 = 19
    TABLE_NUMBER_LEB = 20
    MEMORY_ADDR_TLS_SLEB = 21
    FUNCTION_OFFSET_I64 = 22
    MEMORY_ADDR_LOCREL_I32 = 23
    TABLE_INDEX_REL_SLEB64 = 24
    MEMORY_ADDR_TLS_SLEB64 = 25
    FUNCTION_INDEX_I32 = 26


class CoreValueKind(enum.IntEnum):
    """The kind of a value of a core dump."""

    MISSING = 0
    I32 = 1
    I64 = 2
    F32 = 3
    F64 = 4


class EditKind(enum.IntEnum):
    """The kind of an edit."""

    APPEND = 0
    REPLACE = 1
    REMOVE = 2
    KEEP = 3


class EditStatus(enum.IntEnum):
    """Whether an edited stream was written, and why not."""

    DONE = 0
    NO_ROOM = 1
    MALFORMED = 2
    UNKNOWN_KIND = 3
    NAME_NOT_UTF8 = 4
    SECTION_TOO_LARGE = 5


class NameId(enum.IntEnum):
    """The id of a subsection of `name`."""

    MODULE = 0
    FUNCTION = 1
    LOCAL = 2
    LABEL = 3
    TYPE = 4
    TABLE = 5
    MEMORY = 6
    GLOBAL = 7
    ELEMENT = 8
    DATA = 9
    FIELD = 10
    TAG = 11
    PARAMETER = 12
    TAG_PARAMETER = 13


class LinkingId(enum.IntEnum):
    """The id of a subsection of `linking`."""

    SEGMENT_INFO = 5
    INIT_FUNCS = 6
    COMDAT_INFO = 7
    SYMBOL_TABLE = 8
    TARGET_ARCH = 9


class DylinkId(enum.IntEnum):
    """The id of a subsection of `dylink.0`."""

    MEM_INFO = 1
    NEEDED = 2
    EXPORT_INFO = 3
    IMPORT_INFO = 4
    RUNTIME_PATH = 5
    TARGET_ARCH = 6


class Opcode(enum.IntEnum):
    """The opcode of an instruction of a constant expression. An opcode of two parts is 256 times the first plus the second."""

    END = 11
    GLOBAL_GET = 35
    I32_CONST = 65
    I64_CONST = 66
    F32_CONST = 67
    F64_CONST = 68
    I32_ADD = 106
    I32_SUB = 107
    I32_MUL = 108
    I64_ADD = 124
    I64_SUB = 125
    I64_MUL = 126
    REF_NULL = 208
    REF_FUNC = 210
    STRUCT_NEW = 64256
    STRUCT_NEW_DEFAULT = 64257
    ARRAY_NEW = 64262
    ARRAY_NEW_DEFAULT = 64263
    ARRAY_NEW_FIXED = 64264
    ANY_CONVERT_EXTERN = 64282
    EXTERN_CONVERT_ANY = 64283
    REF_I31 = 64284
    V128_CONST = 64780


class SymbolFlags(enum.IntFlag):
    """The flags of a symbol, as bits."""

    BINDING_WEAK = 1
    BINDING_LOCAL = 2
    VISIBILITY_HIDDEN = 4
    UNDEFINED = 16
    EXPORTED = 32
    EXPLICIT_NAME = 64
    NO_STRIP = 128
    TLS = 256
    ABSOLUTE = 512


class SegmentFlags(enum.IntFlag):
    """The flags of a segment for linkers, as bits."""

    STRINGS = 1
    TLS = 2


class Fault(ctypes.Structure):
    _fields_ = [
        ("kind", ctypes.c_uint32),
        ("has_number", ctypes.c_uint32),
        ("number", ctypes.c_uint64),
        ("offset", ctypes.c_uint64),
    ]


class Event(ctypes.Structure):
    _fields_ = [
        ("kind", ctypes.c_uint32),
        ("id", ctypes.c_uint32),
        ("count", ctypes.c_uint32),
        ("size", ctypes.c_uint32),
        ("start", ctypes.c_uint64),
        ("end", ctypes.c_uint64),
        ("data_offset", ctypes.c_uint64),
        ("at", ctypes.c_size_t),
        ("consumed", ctypes.c_size_t),
        ("hint", ctypes.c_size_t),
        ("name_size", ctypes.c_size_t),
        ("fault", Fault),
    ]


class Parser(ctypes.Structure):
    _fields_ = [
        ("offset", ctypes.c_uint64),
        ("features", ctypes.c_uint32),
        ("functions", ctypes.c_uint32),
        ("codes", ctypes.c_uint32),
        ("datas", ctypes.c_uint32),
        ("data_counts", ctypes.c_uint32),
        ("bodies", ctypes.c_uint32),
        ("code_bytes", ctypes.c_uint32),
        ("is_begun", ctypes.c_uint8),
        ("is_component", ctypes.c_uint8),
        ("rank", ctypes.c_uint8),
        ("has_functions", ctypes.c_uint8),
        ("has_codes", ctypes.c_uint8),
        ("has_datas", ctypes.c_uint8),
        ("has_data_counts", ctypes.c_uint8),
        ("in_code", ctypes.c_uint8),
    ]


class Feed(ctypes.Structure):
    _fields_ = [
        ("parser", Parser),
        ("mark", ctypes.c_size_t),
        ("end", ctypes.c_size_t),
        ("is_finished", ctypes.c_uint8),
    ]


class Items(ctypes.Structure):
    _fields_ = [
        ("offset", ctypes.c_uint64),
        ("position", ctypes.c_size_t),
        ("remaining", ctypes.c_uint32),
        ("features", ctypes.c_uint32),
        ("last", ctypes.c_uint32),
        ("has_last", ctypes.c_uint8),
        ("is_ended", ctypes.c_uint8),
    ]


class Span(ctypes.Structure):
    _fields_ = [
        ("at", ctypes.c_size_t),
        ("size", ctypes.c_size_t),
    ]


class Number(ctypes.Structure):
    _fields_ = [
        ("fault", Fault),
        ("consumed", ctypes.c_size_t),
        ("value", ctypes.c_uint64),
    ]


class Signed(ctypes.Structure):
    _fields_ = [
        ("fault", Fault),
        ("consumed", ctypes.c_size_t),
        ("value", ctypes.c_int64),
    ]


class Type(ctypes.Structure):
    _fields_ = [
        ("kind", ctypes.c_uint32),
        ("nullable", ctypes.c_uint32),
        ("heap", ctypes.c_uint32),
        ("index", ctypes.c_uint32),
    ]


class Value(ctypes.Structure):
    _fields_ = [
        ("fault", Fault),
        ("consumed", ctypes.c_size_t),
        ("ty", Type),
    ]


class Field(ctypes.Structure):
    _fields_ = [
        ("fault", Fault),
        ("consumed", ctypes.c_size_t),
        ("ty", Type),
        ("is_mutable", ctypes.c_uint32),
    ]


class TypeGroup(ctypes.Structure):
    _fields_ = [
        ("fault", Fault),
        ("consumed", ctypes.c_size_t),
        ("is_explicit", ctypes.c_uint32),
        ("count", ctypes.c_uint32),
    ]


class Subtype(ctypes.Structure):
    _fields_ = [
        ("fault", Fault),
        ("consumed", ctypes.c_size_t),
        ("is_final", ctypes.c_uint32),
        ("has_supertype", ctypes.c_uint32),
        ("supertype", ctypes.c_uint32),
        ("kind", ctypes.c_uint32),
        ("count", ctypes.c_uint32),
    ]


class TableType(ctypes.Structure):
    _fields_ = [
        ("element", Type),
        ("table64", ctypes.c_uint32),
        ("shared", ctypes.c_uint32),
        ("has_maximum", ctypes.c_uint32),
        ("initial", ctypes.c_uint64),
        ("maximum", ctypes.c_uint64),
    ]


class MemoryType(ctypes.Structure):
    _fields_ = [
        ("memory64", ctypes.c_uint32),
        ("shared", ctypes.c_uint32),
        ("has_maximum", ctypes.c_uint32),
        ("has_page_size", ctypes.c_uint32),
        ("page_size_log2", ctypes.c_uint32),
        ("initial", ctypes.c_uint64),
        ("maximum", ctypes.c_uint64),
    ]


class GlobalType(ctypes.Structure):
    _fields_ = [
        ("content", Type),
        ("is_mutable", ctypes.c_uint32),
        ("shared", ctypes.c_uint32),
    ]


class Table(ctypes.Structure):
    _fields_ = [
        ("fault", Fault),
        ("consumed", ctypes.c_size_t),
        ("ty", TableType),
        ("init", Span),
        ("has_init", ctypes.c_uint32),
    ]


class Memory(ctypes.Structure):
    _fields_ = [
        ("fault", Fault),
        ("consumed", ctypes.c_size_t),
        ("ty", MemoryType),
    ]


class Tag(ctypes.Structure):
    _fields_ = [
        ("fault", Fault),
        ("consumed", ctypes.c_size_t),
        ("func_type_index", ctypes.c_uint32),
    ]


class Global(ctypes.Structure):
    _fields_ = [
        ("fault", Fault),
        ("consumed", ctypes.c_size_t),
        ("ty", GlobalType),
        ("init", Span),
    ]


class ImportType(ctypes.Structure):
    _fields_ = [
        ("kind", ctypes.c_uint32),
        ("index", ctypes.c_uint32),
        ("table", TableType),
        ("memory", MemoryType),
        ("global", GlobalType),
    ]


class Import(ctypes.Structure):
    _fields_ = [
        ("fault", Fault),
        ("consumed", ctypes.c_size_t),
        ("module_name", Span),
        ("name", Span),
        ("ty", ImportType),
        ("items", Span),
        ("kind", ctypes.c_uint32),
        ("count", ctypes.c_uint32),
    ]


class ImportItem(ctypes.Structure):
    _fields_ = [
        ("fault", Fault),
        ("consumed", ctypes.c_size_t),
        ("name", Span),
        ("ty", ImportType),
    ]


class Name(ctypes.Structure):
    _fields_ = [
        ("fault", Fault),
        ("consumed", ctypes.c_size_t),
        ("name", Span),
    ]


class Imports(ctypes.Structure):
    _fields_ = [
        ("items", Items),
        ("bundled", Items),
        ("bundle", Import),
    ]


class Export(ctypes.Structure):
    _fields_ = [
        ("fault", Fault),
        ("consumed", ctypes.c_size_t),
        ("name", Span),
        ("kind", ctypes.c_uint32),
        ("index", ctypes.c_uint32),
    ]


class Instruction(ctypes.Structure):
    _fields_ = [
        ("fault", Fault),
        ("consumed", ctypes.c_size_t),
        ("opcode", ctypes.c_uint32),
        ("index", ctypes.c_uint32),
        ("heap", ctypes.c_uint32),
        ("count", ctypes.c_uint32),
        ("integer", ctypes.c_int64),
        ("bits", ctypes.c_uint64),
        ("bytes", Span),
    ]


class Expression(ctypes.Structure):
    _fields_ = [
        ("fault", Fault),
        ("consumed", ctypes.c_size_t),
    ]


class Element(ctypes.Structure):
    _fields_ = [
        ("fault", Fault),
        ("consumed", ctypes.c_size_t),
        ("kind", ctypes.c_uint32),
        ("has_table", ctypes.c_uint32),
        ("table", ctypes.c_uint32),
        ("has_expressions", ctypes.c_uint32),
        ("offset_expression", Span),
        ("ty", Type),
        ("items", Span),
        ("count", ctypes.c_uint32),
    ]


class Data(ctypes.Structure):
    _fields_ = [
        ("fault", Fault),
        ("consumed", ctypes.c_size_t),
        ("kind", ctypes.c_uint32),
        ("memory", ctypes.c_uint32),
        ("offset_expression", Span),
        ("bytes", Span),
    ]


class Subsection(ctypes.Structure):
    _fields_ = [
        ("fault", Fault),
        ("consumed", ctypes.c_size_t),
        ("id", ctypes.c_uint32),
        ("contents", Span),
    ]


class Naming(ctypes.Structure):
    _fields_ = [
        ("fault", Fault),
        ("consumed", ctypes.c_size_t),
        ("index", ctypes.c_uint32),
        ("name", Span),
    ]


class IndirectNaming(ctypes.Structure):
    _fields_ = [
        ("fault", Fault),
        ("consumed", ctypes.c_size_t),
        ("index", ctypes.c_uint32),
        ("count", ctypes.c_uint32),
        ("names", Span),
    ]


class ProducersField(ctypes.Structure):
    _fields_ = [
        ("fault", Fault),
        ("consumed", ctypes.c_size_t),
        ("name", Span),
        ("count", ctypes.c_uint32),
        ("values", Span),
    ]


class ProducersValue(ctypes.Structure):
    _fields_ = [
        ("fault", Fault),
        ("consumed", ctypes.c_size_t),
        ("name", Span),
        ("version", Span),
    ]


class HintedFunction(ctypes.Structure):
    _fields_ = [
        ("fault", Fault),
        ("consumed", ctypes.c_size_t),
        ("func", ctypes.c_uint32),
        ("count", ctypes.c_uint32),
        ("hints", Span),
    ]


class BranchHint(ctypes.Structure):
    _fields_ = [
        ("fault", Fault),
        ("consumed", ctypes.c_size_t),
        ("func_offset", ctypes.c_uint32),
        ("taken", ctypes.c_uint32),
    ]


class DylinkMemory(ctypes.Structure):
    _fields_ = [
        ("fault", Fault),
        ("consumed", ctypes.c_size_t),
        ("memory_size", ctypes.c_uint32),
        ("memory_alignment", ctypes.c_uint32),
        ("table_size", ctypes.c_uint32),
        ("table_alignment", ctypes.c_uint32),
    ]


class DylinkExport(ctypes.Structure):
    _fields_ = [
        ("fault", Fault),
        ("consumed", ctypes.c_size_t),
        ("name", Span),
        ("flags", ctypes.c_uint32),
    ]


class DylinkImport(ctypes.Structure):
    _fields_ = [
        ("fault", Fault),
        ("consumed", ctypes.c_size_t),
        ("module_name", Span),
        ("field", Span),
        ("flags", ctypes.c_uint32),
    ]


class LinkingSegment(ctypes.Structure):
    _fields_ = [
        ("fault", Fault),
        ("consumed", ctypes.c_size_t),
        ("name", Span),
        ("alignment", ctypes.c_uint32),
        ("flags", ctypes.c_uint32),
    ]


class InitFunction(ctypes.Structure):
    _fields_ = [
        ("fault", Fault),
        ("consumed", ctypes.c_size_t),
        ("priority", ctypes.c_uint32),
        ("symbol", ctypes.c_uint32),
    ]


class Comdat(ctypes.Structure):
    _fields_ = [
        ("fault", Fault),
        ("consumed", ctypes.c_size_t),
        ("name", Span),
        ("flags", ctypes.c_uint32),
        ("count", ctypes.c_uint32),
        ("symbols", Span),
    ]


class ComdatSymbol(ctypes.Structure):
    _fields_ = [
        ("fault", Fault),
        ("consumed", ctypes.c_size_t),
        ("kind", ctypes.c_uint32),
        ("index", ctypes.c_uint32),
    ]


class Symbol(ctypes.Structure):
    _fields_ = [
        ("fault", Fault),
        ("consumed", ctypes.c_size_t),
        ("name", Span),
        ("kind", ctypes.c_uint32),
        ("flags", ctypes.c_uint32),
        ("index", ctypes.c_uint32),
        ("has_name", ctypes.c_uint32),
        ("is_defined", ctypes.c_uint32),
        ("data_offset", ctypes.c_uint32),
        ("data_size", ctypes.c_uint32),
    ]


class TargetFeature(ctypes.Structure):
    _fields_ = [
        ("fault", Fault),
        ("consumed", ctypes.c_size_t),
        ("name", Span),
        ("prefix", ctypes.c_uint32),
    ]


class Relocation(ctypes.Structure):
    _fields_ = [
        ("fault", Fault),
        ("consumed", ctypes.c_size_t),
        ("kind", ctypes.c_uint32),
        ("extent", ctypes.c_uint32),
        ("offset", ctypes.c_uint32),
        ("index", ctypes.c_uint32),
        ("addend", ctypes.c_int64),
    ]


class CoreProcess(ctypes.Structure):
    _fields_ = [
        ("fault", Fault),
        ("consumed", ctypes.c_size_t),
        ("name", Span),
    ]


class CoreModule(ctypes.Structure):
    _fields_ = [
        ("fault", Fault),
        ("consumed", ctypes.c_size_t),
        ("name", Span),
    ]


class CoreInstance(ctypes.Structure):
    _fields_ = [
        ("fault", Fault),
        ("consumed", ctypes.c_size_t),
        ("module_index", ctypes.c_uint32),
    ]


class CoreThread(ctypes.Structure):
    _fields_ = [
        ("fault", Fault),
        ("consumed", ctypes.c_size_t),
        ("name", Span),
    ]


class CoreFrame(ctypes.Structure):
    _fields_ = [
        ("fault", Fault),
        ("consumed", ctypes.c_size_t),
        ("instance", ctypes.c_uint32),
        ("func", ctypes.c_uint32),
        ("code_offset", ctypes.c_uint32),
    ]


class CoreValue(ctypes.Structure):
    _fields_ = [
        ("fault", Fault),
        ("consumed", ctypes.c_size_t),
        ("kind", ctypes.c_uint32),
        ("integer", ctypes.c_int64),
        ("bits", ctypes.c_uint64),
    ]


class Stripped(ctypes.Structure):
    _fields_ = [
        ("fault", Fault),
        ("size", ctypes.c_size_t),
    ]


class Edited(ctypes.Structure):
    _fields_ = [
        ("fault", Fault),
        ("size", ctypes.c_size_t),
        ("status", ctypes.c_uint32),
    ]


# What each call returns and takes.
CALLS: dict[str, tuple[Any, list[Any]]] = {
    "pulleynavy_version": (ctypes.c_uint32, []),
    "pulleynavy_format_message": (ctypes.c_size_t, [ctypes.c_uint32, ctypes.c_void_p, ctypes.c_size_t]),
    "pulleynavy_parser_init": (Parser, [ctypes.c_uint64, ctypes.c_uint32]),
    "pulleynavy_parse": (Event, [ctypes.POINTER(Parser), ctypes.c_void_p, ctypes.c_size_t, ctypes.c_bool]),
    "pulleynavy_skip": (Event, [ctypes.POINTER(Parser), ctypes.c_void_p, ctypes.c_size_t]),
    "pulleynavy_skip_section": (ctypes.c_uint32, [ctypes.POINTER(Parser)]),
    "pulleynavy_format_fault": (ctypes.c_size_t, [ctypes.POINTER(Parser), ctypes.c_void_p, ctypes.c_size_t, ctypes.c_bool, ctypes.c_void_p, ctypes.c_size_t]),
    "pulleynavy_next_events": (ctypes.c_size_t, [ctypes.POINTER(Parser), ctypes.c_void_p, ctypes.c_size_t, ctypes.c_bool, ctypes.POINTER(Event), ctypes.c_size_t]),
    "pulleynavy_feed_init": (Feed, [ctypes.c_uint64, ctypes.c_uint32]),
    "pulleynavy_feed_step": (Event, [ctypes.POINTER(Feed), ctypes.c_void_p, ctypes.c_size_t]),
    "pulleynavy_feed_finish": (None, [ctypes.POINTER(Feed)]),
    "pulleynavy_feed_push": (ctypes.c_bool, [ctypes.POINTER(Feed), ctypes.c_void_p, ctypes.c_size_t, ctypes.c_void_p, ctypes.c_size_t]),
    "pulleynavy_items_init": (Items, [ctypes.POINTER(Event), ctypes.c_uint32]),
    "pulleynavy_list_init": (Items, [ctypes.c_uint64, ctypes.c_uint32, ctypes.c_uint32]),
    "pulleynavy_read_number": (Number, [ctypes.c_void_p, ctypes.c_size_t, ctypes.c_uint64, ctypes.c_uint32]),
    "pulleynavy_next_numbers": (ctypes.c_size_t, [ctypes.POINTER(Items), ctypes.c_void_p, ctypes.c_size_t, ctypes.POINTER(Number), ctypes.c_size_t]),
    "pulleynavy_read_u64": (Number, [ctypes.c_void_p, ctypes.c_size_t, ctypes.c_uint64, ctypes.c_uint32]),
    "pulleynavy_read_s32": (Signed, [ctypes.c_void_p, ctypes.c_size_t, ctypes.c_uint64, ctypes.c_uint32]),
    "pulleynavy_read_s33": (Signed, [ctypes.c_void_p, ctypes.c_size_t, ctypes.c_uint64, ctypes.c_uint32]),
    "pulleynavy_read_s64": (Signed, [ctypes.c_void_p, ctypes.c_size_t, ctypes.c_uint64, ctypes.c_uint32]),
    "pulleynavy_read_value_type": (Value, [ctypes.c_void_p, ctypes.c_size_t, ctypes.c_uint64, ctypes.c_uint32]),
    "pulleynavy_next_value_types": (ctypes.c_size_t, [ctypes.POINTER(Items), ctypes.c_void_p, ctypes.c_size_t, ctypes.POINTER(Value), ctypes.c_size_t]),
    "pulleynavy_read_heap_type": (Value, [ctypes.c_void_p, ctypes.c_size_t, ctypes.c_uint64, ctypes.c_uint32]),
    "pulleynavy_read_reference_type": (Value, [ctypes.c_void_p, ctypes.c_size_t, ctypes.c_uint64, ctypes.c_uint32]),
    "pulleynavy_read_field_type": (Field, [ctypes.c_void_p, ctypes.c_size_t, ctypes.c_uint64, ctypes.c_uint32]),
    "pulleynavy_next_field_types": (ctypes.c_size_t, [ctypes.POINTER(Items), ctypes.c_void_p, ctypes.c_size_t, ctypes.POINTER(Field), ctypes.c_size_t]),
    "pulleynavy_read_type_group": (TypeGroup, [ctypes.c_void_p, ctypes.c_size_t, ctypes.c_uint64, ctypes.c_uint32]),
    "pulleynavy_read_subtype": (Subtype, [ctypes.c_void_p, ctypes.c_size_t, ctypes.c_uint64, ctypes.c_uint32]),
    "pulleynavy_read_table": (Table, [ctypes.c_void_p, ctypes.c_size_t, ctypes.c_uint64, ctypes.c_uint32]),
    "pulleynavy_next_tables": (ctypes.c_size_t, [ctypes.POINTER(Items), ctypes.c_void_p, ctypes.c_size_t, ctypes.POINTER(Table), ctypes.c_size_t]),
    "pulleynavy_read_memory": (Memory, [ctypes.c_void_p, ctypes.c_size_t, ctypes.c_uint64, ctypes.c_uint32]),
    "pulleynavy_next_memories": (ctypes.c_size_t, [ctypes.POINTER(Items), ctypes.c_void_p, ctypes.c_size_t, ctypes.POINTER(Memory), ctypes.c_size_t]),
    "pulleynavy_read_tag": (Tag, [ctypes.c_void_p, ctypes.c_size_t, ctypes.c_uint64, ctypes.c_uint32]),
    "pulleynavy_next_tags": (ctypes.c_size_t, [ctypes.POINTER(Items), ctypes.c_void_p, ctypes.c_size_t, ctypes.POINTER(Tag), ctypes.c_size_t]),
    "pulleynavy_read_global": (Global, [ctypes.c_void_p, ctypes.c_size_t, ctypes.c_uint64, ctypes.c_uint32]),
    "pulleynavy_next_globals": (ctypes.c_size_t, [ctypes.POINTER(Items), ctypes.c_void_p, ctypes.c_size_t, ctypes.POINTER(Global), ctypes.c_size_t]),
    "pulleynavy_read_table_type": (Table, [ctypes.c_void_p, ctypes.c_size_t, ctypes.c_uint64, ctypes.c_uint32]),
    "pulleynavy_read_global_type": (Global, [ctypes.c_void_p, ctypes.c_size_t, ctypes.c_uint64, ctypes.c_uint32]),
    "pulleynavy_read_import": (Import, [ctypes.c_void_p, ctypes.c_size_t, ctypes.c_uint64, ctypes.c_uint32]),
    "pulleynavy_next_imports": (ctypes.c_size_t, [ctypes.POINTER(Items), ctypes.c_void_p, ctypes.c_size_t, ctypes.POINTER(Import), ctypes.c_size_t]),
    "pulleynavy_read_import_item": (ImportItem, [ctypes.c_void_p, ctypes.c_size_t, ctypes.c_uint64, ctypes.c_uint32]),
    "pulleynavy_read_name": (Name, [ctypes.c_void_p, ctypes.c_size_t, ctypes.c_uint64, ctypes.c_uint32]),
    "pulleynavy_next_names": (ctypes.c_size_t, [ctypes.POINTER(Items), ctypes.c_void_p, ctypes.c_size_t, ctypes.POINTER(Name), ctypes.c_size_t]),
    "pulleynavy_read_text": (Name, [ctypes.c_void_p, ctypes.c_size_t, ctypes.c_uint64, ctypes.c_uint32]),
    "pulleynavy_next_texts": (ctypes.c_size_t, [ctypes.POINTER(Items), ctypes.c_void_p, ctypes.c_size_t, ctypes.POINTER(Name), ctypes.c_size_t]),
    "pulleynavy_read_bundled_import": (ImportItem, [ctypes.POINTER(Import), ctypes.c_void_p, ctypes.c_size_t, ctypes.c_uint64, ctypes.c_uint32]),
    "pulleynavy_imports_init": (Imports, [ctypes.POINTER(Event), ctypes.c_uint32]),
    "pulleynavy_next_flat_imports": (ctypes.c_size_t, [ctypes.POINTER(Imports), ctypes.c_void_p, ctypes.c_size_t, ctypes.POINTER(Import), ctypes.c_size_t]),
    "pulleynavy_read_export": (Export, [ctypes.c_void_p, ctypes.c_size_t, ctypes.c_uint64, ctypes.c_uint32]),
    "pulleynavy_next_exports": (ctypes.c_size_t, [ctypes.POINTER(Items), ctypes.c_void_p, ctypes.c_size_t, ctypes.POINTER(Export), ctypes.c_size_t]),
    "pulleynavy_read_instruction": (Instruction, [ctypes.c_void_p, ctypes.c_size_t, ctypes.c_uint64, ctypes.c_uint32]),
    "pulleynavy_read_expression": (Expression, [ctypes.c_void_p, ctypes.c_size_t, ctypes.c_uint64, ctypes.c_uint32]),
    "pulleynavy_next_expressions": (ctypes.c_size_t, [ctypes.POINTER(Items), ctypes.c_void_p, ctypes.c_size_t, ctypes.POINTER(Expression), ctypes.c_size_t]),
    "pulleynavy_read_element": (Element, [ctypes.c_void_p, ctypes.c_size_t, ctypes.c_uint64, ctypes.c_uint32]),
    "pulleynavy_next_elements": (ctypes.c_size_t, [ctypes.POINTER(Items), ctypes.c_void_p, ctypes.c_size_t, ctypes.POINTER(Element), ctypes.c_size_t]),
    "pulleynavy_read_data": (Data, [ctypes.c_void_p, ctypes.c_size_t, ctypes.c_uint64, ctypes.c_uint32]),
    "pulleynavy_next_data": (ctypes.c_size_t, [ctypes.POINTER(Items), ctypes.c_void_p, ctypes.c_size_t, ctypes.POINTER(Data), ctypes.c_size_t]),
    "pulleynavy_read_subsection": (Subsection, [ctypes.c_void_p, ctypes.c_size_t, ctypes.c_uint64, ctypes.c_uint32]),
    "pulleynavy_read_naming": (Naming, [ctypes.c_void_p, ctypes.c_size_t, ctypes.c_uint64, ctypes.c_uint32]),
    "pulleynavy_next_namings": (ctypes.c_size_t, [ctypes.POINTER(Items), ctypes.c_void_p, ctypes.c_size_t, ctypes.POINTER(Naming), ctypes.c_size_t]),
    "pulleynavy_read_indirect_naming": (IndirectNaming, [ctypes.c_void_p, ctypes.c_size_t, ctypes.c_uint64, ctypes.c_uint32]),
    "pulleynavy_next_indirect_namings": (ctypes.c_size_t, [ctypes.POINTER(Items), ctypes.c_void_p, ctypes.c_size_t, ctypes.POINTER(IndirectNaming), ctypes.c_size_t]),
    "pulleynavy_next_subsections": (ctypes.c_size_t, [ctypes.POINTER(Items), ctypes.c_void_p, ctypes.c_size_t, ctypes.POINTER(Subsection), ctypes.c_size_t]),
    "pulleynavy_next_name_subsections": (ctypes.c_size_t, [ctypes.POINTER(Items), ctypes.c_void_p, ctypes.c_size_t, ctypes.POINTER(Subsection), ctypes.c_size_t]),
    "pulleynavy_read_producers_field": (ProducersField, [ctypes.c_void_p, ctypes.c_size_t, ctypes.c_uint64, ctypes.c_uint32]),
    "pulleynavy_next_producers_fields": (ctypes.c_size_t, [ctypes.POINTER(Items), ctypes.c_void_p, ctypes.c_size_t, ctypes.POINTER(ProducersField), ctypes.c_size_t]),
    "pulleynavy_read_producers_value": (ProducersValue, [ctypes.c_void_p, ctypes.c_size_t, ctypes.c_uint64, ctypes.c_uint32]),
    "pulleynavy_next_producers_values": (ctypes.c_size_t, [ctypes.POINTER(Items), ctypes.c_void_p, ctypes.c_size_t, ctypes.POINTER(ProducersValue), ctypes.c_size_t]),
    "pulleynavy_read_hinted_function": (HintedFunction, [ctypes.c_void_p, ctypes.c_size_t, ctypes.c_uint64, ctypes.c_uint32]),
    "pulleynavy_next_hinted_functions": (ctypes.c_size_t, [ctypes.POINTER(Items), ctypes.c_void_p, ctypes.c_size_t, ctypes.POINTER(HintedFunction), ctypes.c_size_t]),
    "pulleynavy_read_branch_hint": (BranchHint, [ctypes.c_void_p, ctypes.c_size_t, ctypes.c_uint64, ctypes.c_uint32]),
    "pulleynavy_next_branch_hints": (ctypes.c_size_t, [ctypes.POINTER(Items), ctypes.c_void_p, ctypes.c_size_t, ctypes.POINTER(BranchHint), ctypes.c_size_t]),
    "pulleynavy_read_dylink_memory": (DylinkMemory, [ctypes.c_void_p, ctypes.c_size_t, ctypes.c_uint64, ctypes.c_uint32]),
    "pulleynavy_read_dylink_export": (DylinkExport, [ctypes.c_void_p, ctypes.c_size_t, ctypes.c_uint64, ctypes.c_uint32]),
    "pulleynavy_next_dylink_exports": (ctypes.c_size_t, [ctypes.POINTER(Items), ctypes.c_void_p, ctypes.c_size_t, ctypes.POINTER(DylinkExport), ctypes.c_size_t]),
    "pulleynavy_read_dylink_import": (DylinkImport, [ctypes.c_void_p, ctypes.c_size_t, ctypes.c_uint64, ctypes.c_uint32]),
    "pulleynavy_next_dylink_imports": (ctypes.c_size_t, [ctypes.POINTER(Items), ctypes.c_void_p, ctypes.c_size_t, ctypes.POINTER(DylinkImport), ctypes.c_size_t]),
    "pulleynavy_read_linking_segment": (LinkingSegment, [ctypes.c_void_p, ctypes.c_size_t, ctypes.c_uint64, ctypes.c_uint32]),
    "pulleynavy_next_linking_segments": (ctypes.c_size_t, [ctypes.POINTER(Items), ctypes.c_void_p, ctypes.c_size_t, ctypes.POINTER(LinkingSegment), ctypes.c_size_t]),
    "pulleynavy_read_init_function": (InitFunction, [ctypes.c_void_p, ctypes.c_size_t, ctypes.c_uint64, ctypes.c_uint32]),
    "pulleynavy_next_init_functions": (ctypes.c_size_t, [ctypes.POINTER(Items), ctypes.c_void_p, ctypes.c_size_t, ctypes.POINTER(InitFunction), ctypes.c_size_t]),
    "pulleynavy_read_comdat": (Comdat, [ctypes.c_void_p, ctypes.c_size_t, ctypes.c_uint64, ctypes.c_uint32]),
    "pulleynavy_next_comdats": (ctypes.c_size_t, [ctypes.POINTER(Items), ctypes.c_void_p, ctypes.c_size_t, ctypes.POINTER(Comdat), ctypes.c_size_t]),
    "pulleynavy_read_comdat_symbol": (ComdatSymbol, [ctypes.c_void_p, ctypes.c_size_t, ctypes.c_uint64, ctypes.c_uint32]),
    "pulleynavy_next_comdat_symbols": (ctypes.c_size_t, [ctypes.POINTER(Items), ctypes.c_void_p, ctypes.c_size_t, ctypes.POINTER(ComdatSymbol), ctypes.c_size_t]),
    "pulleynavy_read_linking_version": (Number, [ctypes.c_void_p, ctypes.c_size_t, ctypes.c_uint64, ctypes.c_uint32]),
    "pulleynavy_read_symbol": (Symbol, [ctypes.c_void_p, ctypes.c_size_t, ctypes.c_uint64, ctypes.c_uint32]),
    "pulleynavy_next_symbols": (ctypes.c_size_t, [ctypes.POINTER(Items), ctypes.c_void_p, ctypes.c_size_t, ctypes.POINTER(Symbol), ctypes.c_size_t]),
    "pulleynavy_read_target_feature": (TargetFeature, [ctypes.c_void_p, ctypes.c_size_t, ctypes.c_uint64, ctypes.c_uint32]),
    "pulleynavy_next_target_features": (ctypes.c_size_t, [ctypes.POINTER(Items), ctypes.c_void_p, ctypes.c_size_t, ctypes.POINTER(TargetFeature), ctypes.c_size_t]),
    "pulleynavy_read_relocation": (Relocation, [ctypes.c_void_p, ctypes.c_size_t, ctypes.c_uint64, ctypes.c_uint32]),
    "pulleynavy_next_relocations": (ctypes.c_size_t, [ctypes.POINTER(Items), ctypes.c_void_p, ctypes.c_size_t, ctypes.POINTER(Relocation), ctypes.c_size_t]),
    "pulleynavy_read_core_process": (CoreProcess, [ctypes.c_void_p, ctypes.c_size_t, ctypes.c_uint64, ctypes.c_uint32]),
    "pulleynavy_read_core_module": (CoreModule, [ctypes.c_void_p, ctypes.c_size_t, ctypes.c_uint64, ctypes.c_uint32, ctypes.c_uint64]),
    "pulleynavy_read_core_instance": (CoreInstance, [ctypes.c_void_p, ctypes.c_size_t, ctypes.c_uint64, ctypes.c_uint32]),
    "pulleynavy_read_core_thread": (CoreThread, [ctypes.c_void_p, ctypes.c_size_t, ctypes.c_uint64, ctypes.c_uint32]),
    "pulleynavy_read_core_frame": (CoreFrame, [ctypes.c_void_p, ctypes.c_size_t, ctypes.c_uint64, ctypes.c_uint32]),
    "pulleynavy_read_core_value": (CoreValue, [ctypes.c_void_p, ctypes.c_size_t, ctypes.c_uint64, ctypes.c_uint32]),
    "pulleynavy_next_core_values": (ctypes.c_size_t, [ctypes.POINTER(Items), ctypes.c_void_p, ctypes.c_size_t, ctypes.POINTER(CoreValue), ctypes.c_size_t]),
    "pulleynavy_classify_custom": (ctypes.c_uint32, [ctypes.c_void_p, ctypes.c_size_t]),
    "pulleynavy_check_custom_end": (Fault, [ctypes.c_void_p, ctypes.c_size_t, ctypes.c_uint64]),
    "pulleynavy_check_name_end": (Fault, [ctypes.c_void_p, ctypes.c_size_t, ctypes.c_uint64]),
    "pulleynavy_strip": (Stripped, [ctypes.c_void_p, ctypes.c_size_t, ctypes.c_bool]),
    "pulleynavy_encode_custom": (ctypes.c_size_t, [ctypes.c_void_p, ctypes.c_size_t, ctypes.c_void_p, ctypes.c_size_t, ctypes.c_void_p, ctypes.c_size_t]),
    "pulleynavy_edit": (Edited, [ctypes.c_void_p, ctypes.c_size_t, ctypes.c_uint32, ctypes.c_void_p, ctypes.c_size_t, ctypes.c_void_p, ctypes.c_size_t, ctypes.c_void_p, ctypes.c_size_t]),
}

FAULTS = {
    1: "OUT_OF_MEMORY",
    2: "UNEXPECTED_EOF",
    3: "OFFSET_RANGE",
    4: "BAD_MAGIC",
    5: "UNKNOWN_VERSION",
    6: "MAGIC_AT_SECTION",
    7: "MALFORMED_SECTION_ID",
    8: "SECTION_TOO_LARGE",
    9: "OUT_OF_ORDER",
    10: "START_CONTENT",
    11: "DATA_COUNT_CONTENT",
    12: "FUNCTION_CODE_DIFFER",
    13: "FUNCTION_WITHOUT_CODE",
    14: "CODE_WITHOUT_FUNCTION",
    15: "DATA_COUNT_DIFFER",
    16: "DATA_COUNT_WITHOUT_DATA",
    17: "TRAILING_CODE",
    18: "NUMBER_TOO_LONG",
    19: "NUMBER_TOO_LARGE",
    20: "STRING_SIZE",
    21: "MALFORMED_UTF8",
    22: "INVALID_U7",
    23: "INVALID_BOOL",
    24: "SIZE_MISMATCH",
    25: "LEADING_BYTE",
    26: "DATA_FLAGS",
    27: "ELEMENT_FLAGS",
    28: "ELEMENT_FUNCTION_ONLY",
    29: "EXACT_EXPORT",
    30: "GLOBAL_FLAGS",
    31: "COMPACT_7F",
    32: "COMPACT_7E",
    33: "MEMORY_FLAGS",
    34: "PAGE_SIZE",
    35: "TABLE_ENCODING",
    36: "TABLE_FLAGS",
    37: "TAG_ATTRIBUTES",
    38: "NAMES_ORDER",
    39: "INDIRECT_ORDER",
    40: "NAME_SECTION_ORDER",
    41: "NAME_TRAILING",
    42: "PRODUCERS_FIELD",
    43: "LINKING_VERSION",
    44: "CORE_START_BYTE",
    45: "CORE_VALUE",
    46: "CUSTOM_TRAILING",
    47: "NOT_CONSTANT",
    48: "SUPERTYPES",
}
