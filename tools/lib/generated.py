"""The parts of documents that `tools/make-docs` writes, and whether documents have them so:

- in docs/ARCHITECTURE.md the crates, by the first sentences of their pages and by crates.txt;
- in docs/THEOREM.md the texts of the definitions, types and calls of a crate that the list over its part names: of a call
  the clauses that are named behind it, or the whole, where none is; the sizes of the crates; and what is proved by hand or
  unsafe.
"""
import glob
import itertools
import re
import sys

from pages import cell, first_paragraph
from sources import all_crates, call_passage, definition_passage, listed_crates, text_of, type_passage

PART = re.compile(r"(?s)(<!-- (\w+): written by tools/make-docs -->\n)(.*?)(<!-- end -->)")


def stands_on(crates, listed, name):
    """The crates of this repository that a crate names, but for those that one of these stands on itself."""
    direct = [it for it in listed[name] if it in crates]
    below = {it: {*listed[it]} | set().union(*(below_of(listed, one) for one in listed[it])) for it in direct}
    return [it for it in direct if not any(it in below[other] for other in direct if other != it)]


def below_of(listed, name):
    return {*listed.get(name, ())}.union(*(below_of(listed, it) for it in listed.get(name, ())))


# more words than these are cut at a colon
LONG = 24


def what_it_is(crate):
    """The first sentence of a crate's page; where it is long, what stands in front of its first colon, if that says enough."""
    about = re.match(r"(.*?\.)(?: [A-Z]|$)", first_paragraph(crate))[1]
    front = about.split(": ")[0]
    return about if len(about.split()) <= LONG or len(front.split()) < 4 else f"{front.removesuffix('.')}."


def crates_part(crates):
    """The part of ARCHITECTURE: each crate, what it is, and what it stands on."""
    listed = listed_crates()
    rows = ["| Crate | What it is | Stands on |", "|---|---|---|"]
    for name, crate in crates.items():
        own = ", ".join(f"`{it}`" for it in stands_on(crates, listed, name))
        rows.append(f"| `{name}` | {cell(what_it_is(crate))} | {own} |")
    return "\n".join(rows) + "\n"


def names_over(found):
    """The names in front of the colons of the list between the last heading, or the last part, and a part: of each item the
    first, and those behind it."""
    text = found.string[: found.start()]
    lines = text[max(text.rindex("\n#"), text.rfind("<!-- end -->")) :].split("\n")
    return [re.findall(r"`([^`]+)`", it.split(": ")[0]) for it in lines if it.startswith("- `")]


def passage(crate, title, names):
    """What an item of THEOREM names."""
    it = call_passage(crate, title, names) or definition_passage(crate, title) or type_passage(crate, title)
    return it or sys.exit(f"docs/THEOREM.md: {crate.name} has no {title} {' '.join(names)}".rstrip())


def texts_part(crate, items):
    """The part of THEOREM about a crate: the texts that the list over it names, those of one file together."""
    parts = []
    those = [passage(crate, title, names) for title, *names in items]
    for path, group in itertools.groupby(those, key=lambda it: it.path):
        group, texts, over = list(group), [], ""
        for it in group:
            texts.append(it.text if it.over == over else f"{it.over}\n{it.text}")
            over = it.over
        links = ", ".join(f"[`{it.title.split('.')[-1]}`](../{path}#L{it.line})" for it in group)
        parts.append(f"{links}:\n\n```text\n" + "\n\n".join(texts) + "\n```\n")
    return "\n".join(parts)


def sizes_of(name):
    """The lines of a crate's src/, specs/ and proofs/, its wrong bodies, and the rows of tests/rows about it."""
    for folder in ("src", "specs", "proofs"):
        yield sum(text_of(it).count("\n") for it in glob.glob(f"crates/{name}/{folder}/**/*.*", recursive=True))
    for folder in ("must-fail", "edits"):
        yield len(glob.glob(f"crates/{name}/{folder}/*.edit"))
    yield sum(text_of(it).count("\n= ") for it in glob.glob(f"tests/rows/{name}/*.txt"))


def sizes_part(crates):
    """The part of THEOREM about the sizes: those of the crates that a program or the C library stands on, together, of the
    others, and of all. Lines are told in hundreds, so that few changes change them."""
    listed = {"": ["sipwhere", "siplocate", "wokhleas"], **listed_crates()}
    below = below_of(listed, "")
    sizes = {name: list(sizes_of(name)) for name in crates}
    groups = [("programs, C library", [it for it in crates if it in below])]
    groups.append(("tests, benchmarks", [it for it in crates if it not in below]))
    heads = ["Crates", "`src`", "`specs`", "`proofs`", "`must-fail`", "`edits`", "`tests/rows`"]
    rows = [f"| {' | '.join(heads)} |", "|---" * len(heads) + "|"]
    for title, those in [*groups, ("all", list(crates))]:
        sums = [sum(it) for it in zip(*(sizes[name] for name in those))]
        cells = [f"{round(it, -2):,}" for it in sums[:3]] + [f"{it:,}" for it in sums[3:]]
        rows.append(f"| {title} | {' | '.join(cells)} |")
    return "\n".join(rows) + "\n"


def by_hand_part(crates):
    """The part of THEOREM about what is proved by hand and where `unsafe` stands, by crate."""
    rows = ["| Crate | Lines of proof by hand | `unsafe` |", "|---|---|---|"]
    for crate in crates.values():
        proofs = sorted(glob.glob(f"{crate.folder}/proofs/**/Proof.antt", recursive=True))
        lines = sum(text_of(it).count("\n") for it in proofs)
        unsafe = sum(len(re.findall(r"(?m)^.*\bunsafe\b", it)) for it in crate.codes.values())
        if proofs or unsafe:
            rows.append(f"| `{crate.name}` | {lines} | {unsafe} |")
    return "\n".join(rows) + "\n"


def theorem_part(crates, found):
    """A part of THEOREM."""
    if found[2] in crates:
        return texts_part(crates[found[2]], names_over(found))
    return {"sizes": sizes_part, "by_hand": by_hand_part}[found[2]](crates)


def documents():
    """The documents with generated parts, each with its text now and the text that it is to have."""
    crates = all_crates()
    parts = {
        "docs/ARCHITECTURE.md": lambda it: crates_part(crates),
        "docs/THEOREM.md": lambda it: theorem_part(crates, it),
    }
    for path, part in parts.items():
        text = text_of(path)
        yield path, text, PART.sub(lambda it, part=part: f"{it[1]}\n{part(it)}\n{it[4]}", text)


def differing():
    """The parts that are not what this tool writes: document and name."""
    for path, text, new in documents():
        for old_part, new_part in zip(PART.finditer(text), PART.finditer(new)):
            yield path, old_part[2], old_part[3] != new_part[3]
