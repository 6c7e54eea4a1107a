"""Custom sections as values: names, dynamic linking, linking, core dumps."""
# SPDX-License-Identifier: Apache-2.0 OR MIT
from __future__ import annotations

import collections
import dataclasses
import functools
from typing import Any, Callable, Iterable, Iterator

from ._items import Items, Subsection
from ._values import CustomSection, Dylink, Linking
from .declared import CustomKind, DylinkId, LinkingId, NameId


@dataclasses.dataclass(frozen=True)
class Names:
    """The names of the sections `name`, each space by index. They are read when you first access them, and kept; a malformed one raises
    `ParseError` then.

    Spaces with parts, such as `locals`, have the names of the parts by the index of the whole. (Core specification, Appendix, Custom
    Sections, Name Section; the proposal Extended Name Section.)

    >>> from pulleynavy import Module
    >>> names = Module(b"\\0asm\\1\\0\\0\\0\\0\\x0b\\4name\\1\\4\\1\\5\\1f").names
    >>> names, names.functions
    (<Names: 1 subsection>, {5: 'f'})
    """

    sections: tuple[CustomSection, ...]
    features: int
    library: Any = dataclasses.field(default=None, compare=False)

    def __reduce__(self) -> tuple[Any, ...]:
        return type(self), (self.sections, self.features)

    def __repr__(self) -> str:
        count = len(self._subsections)
        return f"<Names: {count} subsection{'' if count == 1 else 's'}>"

    @functools.cached_property
    def _subsections(self) -> list[Subsection]:
        lists = [Items(one.data, one.offset, self.features, self.library) for one in self.sections]
        return [one for items in lists for one in items.name_subsections()]

    def _parts(self, number: NameId) -> Iterator[Items]:
        # The cursor of a subsection moves, so that each reading has its own.
        for one in self._subsections:
            if one.id == number:
                yield Items(one.items.data, one.items.offset, self.features, self.library)

    def _map(self, number: NameId) -> dict[int, str]:
        return {index: name for items in self._parts(number) for index, name in items.counted().namings()}

    def _indirect_map(self, number: NameId) -> dict[int, dict[int, str]]:
        return {index: names for items in self._parts(number) for index, names in items.counted().indirect_namings()}

    @functools.cached_property
    def module(self) -> str | None:
        """The name of the module, or `None`."""
        name = None
        for items in self._parts(NameId.MODULE):
            name = _module_name(items)
        return name

    @functools.cached_property
    def functions(self) -> dict[int, str]:
        """The names of functions."""
        return self._map(NameId.FUNCTION)

    @functools.cached_property
    def locals(self) -> dict[int, dict[int, str]]:
        """The names of the parameters and locals of each function."""
        return self._indirect_map(NameId.LOCAL)

    @functools.cached_property
    def labels(self) -> dict[int, dict[int, str]]:
        """The names of the labels of each function."""
        return self._indirect_map(NameId.LABEL)

    @functools.cached_property
    def types(self) -> dict[int, str]:
        """The names of types."""
        return self._map(NameId.TYPE)

    @functools.cached_property
    def tables(self) -> dict[int, str]:
        """The names of tables."""
        return self._map(NameId.TABLE)

    @functools.cached_property
    def memories(self) -> dict[int, str]:
        """The names of memories."""
        return self._map(NameId.MEMORY)

    @functools.cached_property
    def globals(self) -> dict[int, str]:
        """The names of globals."""
        return self._map(NameId.GLOBAL)

    @functools.cached_property
    def elements(self) -> dict[int, str]:
        """The names of element segments."""
        return self._map(NameId.ELEMENT)

    @functools.cached_property
    def data(self) -> dict[int, str]:
        """The names of data segments."""
        return self._map(NameId.DATA)

    @functools.cached_property
    def fields(self) -> dict[int, dict[int, str]]:
        """The names of the fields of each type."""
        return self._indirect_map(NameId.FIELD)

    @functools.cached_property
    def tags(self) -> dict[int, str]:
        """The names of tags."""
        return self._map(NameId.TAG)

    @functools.cached_property
    def parameters(self) -> dict[int, dict[int, str]]:
        """The names of the parameters of each function type."""
        return self._indirect_map(NameId.PARAMETER)

    @functools.cached_property
    def tag_parameters(self) -> dict[int, dict[int, str]]:
        """The names of the parameters of each tag."""
        return self._indirect_map(NameId.TAG_PARAMETER)


def _module_name(items: Items) -> str:
    name = items.read_name()
    items.check_name_end()
    return name


# The field and the reader of each subsection with a known id.
_DYLINK = {
    DylinkId.MEM_INFO: ("memory", Items.read_dylink_memory),
    DylinkId.NEEDED: ("needed", Items.read_texts),
    DylinkId.EXPORT_INFO: ("exports", Items.read_dylink_exports),
    DylinkId.IMPORT_INFO: ("imports", Items.read_dylink_imports),
    DylinkId.RUNTIME_PATH: ("runtime_path", Items.read_texts),
    DylinkId.TARGET_ARCH: ("target_arch", Items.read_text),
}
_LINKING = {
    LinkingId.SEGMENT_INFO: ("segments", lambda items: tuple(items.counted().linking_segments())),
    LinkingId.INIT_FUNCS: ("init_functions", lambda items: tuple(items.counted().init_functions())),
    LinkingId.COMDAT_INFO: ("comdats", lambda items: tuple(items.counted().comdats())),
    LinkingId.SYMBOL_TABLE: ("symbols", lambda items: tuple(items.counted().symbols())),
    LinkingId.TARGET_ARCH: ("target_arch", Items.read_name),
}


def dylink(lists: list[Items]) -> Dylink | None:
    """What the sections `dylink.0` say, or `None` without one."""
    return Dylink(**_fields(lists, _DYLINK)) if lists else None


def linking(lists: list[Items]) -> Linking | None:
    """What the sections `linking` say, or `None` without one."""
    for items in lists:
        items.read_linking_version()
    return Linking(**_fields(lists, _LINKING)) if lists else None


def _fields(lists: list[Items], readers: Any) -> dict[str, Any]:
    """The fields by name. The items of subsections with the same id are together; of two names or memories the last one counts."""
    found: dict[str, Any] = {}
    for part in (part for items in lists for part in items.subsections() if part.id in readers):
        name, read = readers[part.id]
        value = read(part.items)
        found[name] = found.get(name, ()) + value if type(value) is tuple else value
    return found


# ---- whether they are well-formed


def exhaust(values: Iterable[Any]) -> None:
    """Reads all values, and keeps none."""
    collections.deque(values, 0)


_INDIRECT = frozenset((NameId.LOCAL, NameId.LABEL, NameId.FIELD, NameId.PARAMETER, NameId.TAG_PARAMETER))
_DIRECT = frozenset(NameId) - _INDIRECT - {NameId.MODULE}


def _check_names(items: Items) -> None:
    for part in items.name_subsections():
        if part.id == NameId.MODULE:
            _module_name(part.items)
        elif part.id in _INDIRECT:
            exhaust(part.items.counted().indirect_namings())
        elif part.id in _DIRECT:
            exhaust(part.items.counted().namings())


def _check_relocations(items: Items) -> None:
    items.read_number()
    exhaust(items.counted().relocations())


# What reads all of a custom section, by its kind.
_CHECKS: dict[CustomKind, Callable[[Items], Any]] = {
    CustomKind.NAME: _check_names,
    CustomKind.BRANCH_HINTS: lambda items: exhaust(items.counted().branch_hints()),
    CustomKind.PRODUCERS: lambda items: exhaust(items.counted().producers()),
    CustomKind.DYLINK0: lambda items: dylink([items]),
    CustomKind.LINKING: lambda items: linking([items]),
    CustomKind.RELOC: _check_relocations,
    CustomKind.CORE: Items.read_core_process,
    CustomKind.CORE_MODULES: Items.read_core_modules,
    CustomKind.CORE_INSTANCES: Items.read_core_instances,
    CustomKind.CORE_STACK: Items.read_core_stack,
}


def check_custom(section: CustomSection, features: int, library: Any) -> None:
    """Reads all of a known custom section. Raises the `ParseError` of the first malformed item."""
    items = Items(section.data, section.offset, features, library)
    if section.name == "target_features":
        exhaust(items.counted().target_features())
    elif section.kind in _CHECKS:
        _CHECKS[section.kind](items)
