"""Which names the proofs and specs of crates define, and where each of them is cited."""

from __future__ import annotations

import pathlib
import re
from collections.abc import Iterable, Iterator
from dataclasses import dataclass, field

STRING_OR_COMMENT = {'.rt': re.compile(r"""b?'(?:\\.|[^'\\\n])'|"(?:\\.|[^"\\])*"|//.*"""),
                     '.antt': re.compile(r'"(?:\\.|[^"\\])*"|--.*')}
USE = re.compile(r'\s*(pub )?(?:ghost )?use (Rattle(?:\.\w+)+)(?:\.\{(.*)\}| as (\w+))?;?\s*')
SIGNATURE = re.compile(r"(?:(?:abbrev|pub) )*([\w'-]+) : *(.*)")
RECORD = re.compile(r"(?:pub )?(?:record|data) ([\w'-]+)")
NAME = re.compile(r"[\w'-]+(?:\.[\w'-]+)*")  # with its qualifiers
PATH = re.compile(r"(\w+)((?:::[\w'-]+)+)")  # as attributes of code have it: crate::proofs::Module::name


@dataclass(frozen=True)
class Definition:
    """A name that a module defines, and the line that says its type. `is_answer` is whether it answers a goal of the toolchain's."""
    module: str
    name: str
    line: int
    is_answer: bool


@dataclass
class File:
    """What is read of a file: its own definitions, the names and modules that it has from others, and the names that each part of it cites. A
    part is one definition, or under the name '' all that defines nothing."""
    module: str
    definitions: list[Definition] = field(default_factory=list)
    imported: dict[str, tuple[str, str]] = field(default_factory=dict)
    handed_on: dict[str, tuple[str, str]] = field(default_factory=dict)
    modules: dict[str, str] = field(default_factory=dict)
    cited: dict[str, set[str]] = field(default_factory=dict)


def plain(text: str, suffix: str) -> str:
    """A file's text without what its strings and comments say."""
    return STRING_OR_COMMENT[suffix].sub(lambda found: '' if found[0].startswith(('//', '--')) else '""', text)


def read(module: str, text: str, suffix: str) -> File:
    """Reads the text of a file. A .rt file defines no name that a proof could cite."""
    file, name, depths = File(module), '', Depths()
    for number, line in enumerate(plain(text, suffix).split('\n'), 1):
        if use := USE.fullmatch(line):
            add_use(file, use)
            continue
        if suffix == '.antt' and depths.is_at_module(line):
            found = SIGNATURE.match(line.strip()) or RECORD.match(line.strip())
            if found:
                name = found[1]
                is_answer = found.re is SIGNATURE and found[2].startswith('goal.')
                file.definitions.append(Definition(module, name, number, is_answer))
            elif not line.strip().startswith(f'{name} '):
                name = name if line.split()[0] == 'unfolding' else ''
        words = file.cited.setdefault(name, set())
        words.update(NAME.findall(line))
        if suffix == '.rt':
            words.update(f'Rattle.{crate_of(module, first)}{rest}'.replace('::', '.') for first, rest in PATH.findall(line))
    return file


def crate_of(module: str, first: str) -> str:
    """The crate that the first word of a path means in a module."""
    return module.split('.')[1] if first == 'crate' else first


class Depths:
    """At which indents a module's own definitions stand, while its lines go by: those in `module _ .. where` stand deeper than those outside."""

    def __init__(self) -> None:
        self.indents, self.is_in_head, self.is_first = [0], False, False

    def is_at_module(self, line: str) -> bool:
        """Whether the next line is a module's own, and not inside one of its definitions."""
        if not line.strip():
            return False
        indent = len(line) - len(line.lstrip())
        if self.is_first and indent > self.indents[-1]:
            self.indents.append(indent)
        self.is_first = False
        if self.is_in_head or line.strip().startswith('module '):
            self.pop(indent)
            self.is_in_head = not line.rstrip().endswith('where')
            self.is_first = not self.is_in_head
            return False
        self.pop(indent)
        return indent == self.indents[-1]

    def pop(self, indent: int) -> None:
        while not self.is_in_head and indent < self.indents[-1]:
            self.indents.pop()


def add_use(file: File, use: re.Match[str]) -> None:
    """Notes what a line of `use` brings in: names of a module, or the module itself under its last word or another one."""
    is_pub, module, names, alias = use.groups()
    if names is None:
        file.modules[alias or module.rpartition('.')[2]] = module
        return
    for word in names.split(','):
        name, _, other = word.strip().partition(' as ')
        file.imported[other or name] = module, name
        if is_pub:
            file.handed_on[other or name] = module, name


def cited(files: Iterable[File]) -> set[tuple[str, str]]:
    """The names that are cited anywhere but in their own definitions, each with its module."""
    by_module = {file.module: file for file in files}
    return {origin(by_module, module, name) for file in by_module.values() for module, name in cited_by(file)}


def cited_by(file: File) -> Iterator[tuple[str, str]]:
    """The names that a file cites, each with the module that it has it from."""
    own = {definition.name for definition in file.definitions}
    for part, words in file.cited.items():
        for word in words:
            first, *rest = word.split('.')
            if first in own:
                if first != part:
                    yield file.module, first
            elif first in file.imported:
                yield file.imported[first]
            elif first in file.modules and rest:
                yield file.modules[first], rest[0]
            elif first == 'Rattle':
                yield from ((word.rpartition('.' + each)[0], each) for each in rest)


def origin(by_module: dict[str, File], module: str, name: str) -> tuple[str, str]:
    """The module that defines a name, which the module at hand may only hand on."""
    while module in by_module and name in by_module[module].handed_on:
        module, name = by_module[module].handed_on[name]
    return module, name


def unused(files: Iterable[File]) -> list[Definition]:
    """The definitions that nothing cites, without answers."""
    files = list(files)
    found = cited(files)
    return [each for file in files for each in file.definitions if not each.is_answer and (each.module, each.name) not in found]


def module_of(path: pathlib.Path) -> str:
    """The name of the module that a file below crates/ is."""
    return 'Rattle.' + '.'.join(path.with_suffix('').parts)


def uses(text: str) -> dict[str, list[str]]:
    """The libraries that each crate uses, by the text of crates.txt."""
    lines = [line.partition('#')[0].partition(':') for line in text.split('\n')]
    return {crate.split()[0]: names.split() for crate, colon, names in lines if colon}


def unnamed(wanted: list[str], files: Iterable[File]) -> list[str]:
    """Those of these libraries that none of a crate's files names."""
    named: set[str] = set()
    for file in files:
        for words in file.cited.values():
            named.update(part for word in words for part in word.split('.'))
        named.update(module.split('.')[1] for module, _ in file.imported.values())
        named.update(module.split('.')[1] for module in file.modules.values())
    return [name for name in wanted if name not in named]
