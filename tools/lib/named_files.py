"""Whether what documents name as a file, a function or a type of a crate is one, for `tools/check-docs`.

1. In a table whose first column is headed "Crate" each word of the row is a file of this crate (without `.rt`), a public name
   of it, a type or a definition of it, a crate, or what a crate below makes public.
2. docs/DESIGN.md says in a table, headed "Section" and "Crates", which crates some of its sections are about. Each word there
   is a file or a name of these, or as in 1; in a table headed "File" the first column has files alone.
3. A file (`name.rt`, `specs/Name.antt`) is one of the crate that is named behind it (`name.rt` of `crate`), else of the row's
   as in 1, else of the one named last before it in the row or paragraph, else of one of its section's, else of any.
4. What stands in a row of a table that is headed "Step", "Crate" and "Function" is a function of a crate of this row.
5. What is said to be of a crate (`name` of `crate`) is a name of it.

A word is what stands alone between backquotes, of letters, digits and `_`.
"""
import glob
import os
import re

from pages import CELL, anchor
from sources import ghosts_of, text_of

QUOTED = re.compile(r"`([^`]+)`")
FILE = re.compile(r"`((?!src/|crates/)\w[\w/]*\.rt|specs/[\w/]+\.antt)`")
BEHIND = re.compile(r"(?: \([^)]*\))?(?:(?:,| and|, and) `[\w/.]+`(?: \([^)]*\))?)* of `(\w+)`")
OF_CRATE = re.compile(r"`(\w+)` of `(\w+)`")
# what is of the language and of the toolchain's libraries
ELSEWHERE = ("Arc", "Mutex", "Seen", "unsafe")


class Units:
    """The rows of tables and the paragraphs of a document, without its generated parts and its blocks of text: each with its
    line, its section, and of a row the head of its table."""

    def __init__(self, lines):
        self.found, self.section, self.fenced = [], "", False
        self.head = self.open = None
        for at, line in lines:
            self.take(at, line)

    def take(self, at, line):
        if line.startswith("```"):
            self.fenced = not self.fenced
        if self.fenced or line.startswith("```"):
            return
        if line.startswith("## "):
            self.section = line[3:].strip()
        if line.startswith("|"):
            self.head = self.head or [it.strip() for it in CELL.split(line)[1:-1]]
            self.found.append([at, self.section, self.head, line])
            self.open = None
            return
        self.head = None
        if line and self.open:
            self.open[3] += " " + line
        elif line:
            self.open = [at, self.section, None, line]
            self.found.append(self.open)
        if not line or line.startswith("#"):
            self.open = None


class Named:
    """What a crate has: its files, the names of its sources, and what it makes public."""

    def __init__(self, crate):
        paths = glob.glob(f"{crate.folder}/src/**/*.rt", recursive=True)
        self.paths = {it.removeprefix(f"{crate.folder}/src/") for it in paths}
        self.paths |= {f"specs/{it.replace('.', '/')}.antt" for it in crate.modules}
        self.files = {os.path.basename(it)[: -len(".rt")] for it in paths}
        self.exported = crate.exported
        ghosts = {item: owner for text in crate.sources.values() for owner, item, _, _ in ghosts_of(text)}
        self.public = crate.exported | {it.name for it in crate.public}
        self.public |= {item for item, owner in ghosts.items() if owner in crate.exported}
        definitions = {it.name for those in crate.definitions.values() for it in those}
        self.calls = {it.name for it in crate.calls} | {it.title for it in crate.calls}
        self.calls |= {f"{it.trait}::{it.name}" for it in crate.calls if it.trait}
        self.kinds = crate.types | {it for it in definitions if it[0].isupper()}
        self.names = self.kinds | definitions | self.calls | self.files | self.public | ghosts.keys()
        self.names |= {it.split(".")[-1] for it in crate.modules}
        for text in crate.modules.values():
            self.names |= set(re.findall(r"\bpub (\w+) :", text))
        for text in map(text_of, paths):
            for body in re.findall(r"(?ms)^(?:pub(?:\(crate\))? )?(?:enum|struct) \w+.*?^[})]", text):
                self.names |= set(re.findall(r"^ +(?:pub(?:\(crate\))? )?(\w+)", body, re.M))
            self.names |= set(re.findall(r"\bconst (\w+)", text))


class Check:
    """The checks over all documents."""

    def __init__(self, crates, listed):
        self.named = {name: Named(crate) for name, crate in crates.items()}
        self.below = listed
        self.listed = set(listed) | {it for those in listed.values() for it in those}
        self.sections = {}

    def is_elsewhere(self, word, crates):
        """Whether a word is a crate, or what a crate below one of these makes public."""
        below = {it for crate in crates for it in self.below.get(crate, ())} & self.named.keys()
        return word in self.listed or word in ELSEWHERE or any(word in self.named[it].exported for it in below)

    def read_sections(self, document, units):
        """The crates of the sections that a table says it of."""
        self.sections = {}
        for _, _, head, line in units:
            if head == ["Section", "Crates"]:
                cells = CELL.split(line)
                for part in re.findall(r"\(#([\w-]+)\)", cells[1]):
                    self.sections[part] = [it for it in QUOTED.findall(cells[2]) if it in self.named]

    def row_crate(self, head, line):
        """The crate that a row of a table is about, whose first column is headed "Crate"."""
        crate = re.match(r"\| `(\w+)` \|", line) if head and head[0] == "Crate" else None
        return [crate[1]] if crate and crate[1] in self.named else []

    def words(self, section, head, line):
        """1 and 2: each word, and whether it is there."""
        cells = CELL.split(line)[1:-1] if head else [line]
        row = self.row_crate(head, line)
        crates = row or self.sections.get(anchor(section), [])
        others = {at[1] for at in OF_CRATE.finditer(line) if at[2] in self.named}
        for at, text in enumerate(cells if crates else []):
            for word in QUOTED.findall(text):
                if not re.fullmatch(r"\w+", word) or word in others:
                    continue
                those = [self.named[it] for it in crates]
                if head and head[0] == "File" and at == 0:
                    is_there = any(word in it.files for it in those)
                elif crates == row:
                    is_there = any(word in it.files | it.public | it.kinds for it in those) or self.is_elsewhere(word, crates)
                else:
                    is_there = any(word in it.names for it in those) or self.is_elsewhere(word, crates)
                yield word, crates, is_there

    def files(self, section, head, line):
        """3: each file, and whether it is there."""
        row = self.row_crate(head, line)
        for it in FILE.finditer(line):
            behind = BEHIND.match(line[it.end() :])
            before = [word for word in QUOTED.findall(line[: it.start()]) if word in self.named]
            nearest = [behind[1]] if behind else row or before[-1:]
            crates = nearest or self.sections.get(anchor(section)) or list(self.named)
            is_there = any(it[1] in self.named[crate].paths for crate in crates if crate in self.named)
            yield it[1], crates, is_there

    def functions(self, head, line):
        """4: each function, and whether it is there."""
        if head == ["Step", "Crate", "Function"]:
            cells = CELL.split(line)[1:-1]
            crates = QUOTED.findall(cells[1])
            for word in QUOTED.findall(cells[2]):
                yield word, crates, any(word in self.named[it].calls for it in crates if it in self.named)

    def parts(self, line):
        """5: each name that is said to be of a crate, and whether it is there."""
        for it in OF_CRATE.finditer(line):
            if it[2] in self.named:
                yield it[1], [it[2]], it[1] in self.named[it[2]].names

    def faults(self, document, lines):
        """What does not hold in a document; None for each name that is there."""
        units = Units(lines).found
        self.read_sections(document, units)
        for at, section, head, line in units:
            found = [*self.words(section, head, line), *self.files(section, head, line)]
            found += [*self.functions(head, line), *self.parts(line)]
            for word, crates, is_there in found:
                where = " or ".join(crates) if len(crates) < len(self.named) else "any crate"
                yield None if is_there else f"{document}:{at}: there is no {word} in {where}"
