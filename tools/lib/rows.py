"""The rows of tests/rows: what a program reads and prints for a public call.

tests/rows/CRATE/CALL.txt has the rows of a call. A line is one of

  # TEXT    of the whole file: what the lines of this call say
  = WHY     begins a row: the standard's section that decides it, and what it is there for
  < TEXT    a line that the program reads
  > TEXT    a line that it has to print, at the end

Each row is a run of `try_calls` of its own.
"""
import glob
import os

from sources import listed_crates

NAME = "try_calls"
BUILDS = f"crates/{NAME}/out/{NAME} crates/{NAME}/out/{NAME}.by-rattle"


class Row:
    """A row: why it is there, what the program reads, and what it has to print."""

    def __init__(self, file, number, why):
        self.file, self.number, self.why, self.input, self.output = file, number, why, "", ""

    @property
    def call(self):
        return call_of(self.file)

    def __str__(self):
        return f"{self.file}:{self.number}: {self.why}"


def call_of(file):
    """The crate and the call of a file of rows."""
    folder, name = os.path.split(file)
    return os.path.basename(folder), name.removesuffix(".txt")


def rows_of(file):
    """The rows of a file, and the numbers of its lines that are no part of one."""
    rows, strange = [], []
    with open(file, encoding="utf-8") as lines:
        for number, line in enumerate(lines, 1):
            sign, text = line[:1], line[2:] if line[1:2] == " " else line[1:]
            if sign == "=":
                rows.append(Row(file, number, text.strip()))
            elif sign == "<" and rows:
                rows[-1].input += text
            elif sign == ">" and rows:
                rows[-1].output += text
            elif sign not in "#\n":
                strange.append(number)
    return rows, strange


def files_of(names):
    """The files of rows of these crates (`CRATE`) and calls (`CRATE/CALL`); without names all."""
    files = sorted(glob.glob("tests/rows/*/*.txt"))
    if not names:
        return files
    return [it for it in files if any(f"{it.removesuffix('.txt')}/".startswith(f"tests/rows/{name}/") for name in names)]


def program_of(crate):
    """The name of the program that runs the rows of a crate, if it stands on it, by crates.txt."""
    return NAME if crate in listed_crates()[NAME] else None


def builds_of(crate):
    """The builds of that program: those that `rt ci` leaves, or those that the variable PROGRAMS names in their place."""
    programs = os.environ.get("PROGRAMS", BUILDS).split()
    return [it for it in programs if os.path.basename(it).split(".")[0] == program_of(crate)]
