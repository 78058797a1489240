"""The page of a crate: what its public calls ask and say, and the definitions that contracts cite, as the sources have
them. `tools/make-docs` writes it to out/doc/CRATE.md."""
import re
import textwrap

from sources import UNSEEN, closure, definition_passage, docs_above, ghosts_of, header_of, in_order, rests_on

CELL = re.compile(r"(?<!\\)\|")
ITEM = re.compile(r"^pub (struct|enum|trait|const|type) (\w+)")
# of the items that no caller meets, those that say how contracts see a value
SEEN = {"view"}
FOLDER = "out/doc"
# calls that no other crate meets, of which a page tells too, since their contracts say what no public one does
PRIVATE = {
    "sip_worker": {"send_all", "receive_once"},
    "sip_workers": {"deal_out", "put_in_order"},
    "dns_transport": {
        *("OpenChain::begin", "OpenChain::step", "has_id", "refuses_edns", "rcode_of", "moment_after", "server_at"),
        *("ServerWire::ask", "ServerWire::ask_in_turn", "ServerWire::take", "port_of"),
    },
    "sip_report": {"check_status", "check_line"},
    "sipwhere_options": {"servers_from", "server_from_text", "local_from_text", "attempts_by"},
    "sipwhere": {
        "OpenLines::settle",
        "OpenLines::tell_first",
        "LocateRun::locate_input",
        "LocateRun::locate_texts",
        "LocateRun::locate_all",
    },
}


def cell(text):
    """A text as a cell of a table."""
    return text.replace("|", "\\|")


def sentence(text):
    """A text with a capital in front and a full stop."""
    text = text.strip()
    return text[:1].upper() + text[1:] + ("" if not text or text[-1] in ".:" else ".")


def anchor(heading):
    """A heading as links name it."""
    return re.sub(r"[^\w -]", "", heading.lower()).replace(" ", "-")


def first_paragraph(crate):
    """What the page of a crate's sources begins with."""
    page = next(it for it in (f"{crate.folder}/src/lib.rt", f"{crate.folder}/src/main.rt") if it in crate.sources)
    first = re.match(r"(?://!.*\n)*", crate.sources[page])[0]
    return " ".join(it[3:].strip() for it in first.split("\n//!\n")[0].split("\n")).strip()


def linked(path, line):
    """A link from a page to a line of a source."""
    return f"[`{path.split('/', 2)[2]}`, line {line}](../../{path}#L{line})"


def fenced(text):
    return f"```text\n{text}\n```\n"


def statement_of(call):
    """A function without its body: its signature, what it asks and what it says."""
    lines = call.text.split("\n")
    if lines[-1].strip() in ("{", "{}"):
        lines.pop()
    return textwrap.dedent(re.sub(r"(?: \{\}?|;)$", "", "\n".join(lines)))


def end_of(lines, at, kind):
    """The last line of an item that begins at a line; of a trait that of its head."""
    ends = ("{",) if kind == "trait" else (";", "}")
    return next(it for it in range(at, len(lines)) if lines[it].endswith(ends))


def types_in(crate):
    """The public types, traits and constants of a crate: path, line, name, documentation and text; of a trait its head
    alone, whose functions stand under the calls."""
    for path, text in crate.sources.items():
        lines = text.split("\n")
        for at, line in enumerate(lines):
            found = ITEM.match(line)
            if found and found[2] in crate.exported:
                whole = "\n".join(lines[at : end_of(lines, at, found[1]) + 1])
                yield path, at + 1, found[2], docs_above(lines, at), whole.removesuffix(" {")


def seen_as(crate, name):
    """The ghost items of a type or a trait that a caller meets."""
    for text in crate.sources.values():
        for owner, item, _, whole in ghosts_of(text):
            if owner == name and (item in SEEN or item not in UNSEEN):
                yield whole


class Pages:
    """What contracts cite, and what is written about it, of the crates that have definitions."""

    def __init__(self, crates):
        self.crates = crates
        self.others = {it: PRIVATE.get(it, set()) for it in crates if crates[it].modules}
        self.known, self.by, self.through = closure(crates, self.others)

    def is_cited(self, key):
        """Whether a contract of a public call cites a definition, or one that rests on it."""
        return key in self.by or key in self.through

    def bare(self):
        """The definitions that a contract names of which nothing is said."""
        for key in self.by:
            it = self.known[key]
            if not it.comment:
                yield f"{it.crate} {it.module}.{it.name}"

    def calls_of(self, crate):
        """The calls of a page: those that are public, and some that are private."""
        return [it for it in crate.calls if crate.is_exported(it) or it.title in self.others.get(crate.name, ())]

    def citing(self, key):
        """What cites a definition: public calls and types, by their crates, and definitions."""
        found = {}
        for crate, title in self.by.get(key, ()):
            found.setdefault(crate, []).append(title)
        for it in self.through.get(key, ()):
            found.setdefault(it.crate, []).append(it.name if it.module == key[1] else f"{it.module}.{it.name}")
        for crate in sorted(found, key=lambda it: (it != key[0], list(self.crates).index(it))):
            titles = ", ".join(f"`{it}`" for it in dict.fromkeys(found[crate]))
            yield titles if crate == key[0] else f"of `{crate}` {titles}"

    def types(self, crate):
        """The public types, traits and constants, and how contracts see them."""
        for path, line, name, docs, text in types_in(crate):
            yield f"### `{name}`\n\n{linked(path, line)}\n\n{told(docs)}"
            yield fenced("\n".join([text, *dict.fromkeys(seen_as(crate, name))]))

    def calls(self, crate):
        """The calls, with their documentation and their contracts."""
        for call in self.calls_of(crate):
            private = "" if crate.is_exported(call) else " (private)"
            docs = call.docs or (f"As of `{call.trait}`." if call.trait else "")
            yield f"### `{call.title}`\n\n{linked(call.path, call.line)}{private}\n\n{told(docs)}"
            yield fenced(statement_of(call))

    def definitions(self, crate):
        """The definitions that are cited, module by module, and then the modules of which none is."""
        private = []
        for module in in_order(crate):
            about = sentence(header_of(crate.modules[module]))
            those = [it for it in crate.definitions[module] if self.is_cited(it.key)]
            if not those:
                private.append(f"`{module}`: {about}")
                continue
            section, over = "", ""
            yield f"### `{module}`\n\n{about}\n"
            for it in those:
                passage = definition_passage(crate, f"{module}.{it.name}")
                if it.section != section:
                    section = it.section
                    yield f"*{sentence(section)}*\n"
                yield f"#### `{module}.{it.name}`\n\n{linked(passage.path, it.line)}. {sentence(it.comment)}\n"
                yield f"Cited by {'; '.join(self.citing(it.key))}.\n"
                yield fenced(passage.text if passage.over == over else f"{passage.over}\n{passage.text}".lstrip("\n"))
                over = passage.over
        if private:
            yield "### Cited by private contracts alone\n\n" + "\n".join(f"- {it}" for it in private) + "\n"

    def elsewhere(self, crate):
        """The definitions of other crates that are named in this one, by a public contract or by a definition of it."""
        found = {}
        for key, title, _ in crate.cited(self.others[crate.name]):
            found.setdefault(key, []).append(title)
        for module in in_order(crate):
            for it in crate.definitions[module]:
                for key in rests_on(self.crates, it) if self.is_cited(it.key) else ():
                    found.setdefault(key, []).append(f"{module}.{it.name}")
        rows = []
        for name, other in self.crates.items():
            for module in in_order(other) if name != crate.name else ():
                for it in other.definitions[module]:
                    if it.key in found and self.is_cited(it.key):
                        title = f"{module}.{it.name}"
                        titles = ", ".join(f"`{by}`" for by in dict.fromkeys(found[it.key]))
                        link = f"`{name}` [`{title}`]({name}.md#{anchor(title)})"
                        rows.append(f"| {link} | {cell(sentence(it.comment))} | {titles} |")
        if rows:
            yield "\n".join(["| Definition | Meaning | Cited by |", "|---|---|---|", *rows]) + "\n"

    def page(self, crate):
        """The whole page of a crate."""
        parts = [("Types", self.types), ("Calls", self.calls), ("Definitions", self.definitions)]
        parts.append(("Definitions of other crates", self.elsewhere))
        text = f"# `{crate.name}`\n\n{first_paragraph(crate)}\n\n{ABOUT}"
        for title, part in parts:
            those = list(part(crate))
            text += f"\n## {title}\n\n" + "\n".join(those) if those else ""
        return text


ABOUT = """`tools/make-docs` writes this page from the sources: the public types and calls of the crate, with what each call asks
(`requires`) and says (`ensures`), and the definitions of `specs/` that contracts of public calls cite or that these rest on,
a module after those that it uses.

Of every call it is proved, besides, that no index is out of range, no number overflows and nothing is used after it was freed,
on every input that its `requires` allows; and that it returns, unless it takes a runtime that may wait (`R: Wait`): then the
contract says what holds if it returns. A call whose name begins with `law_` does nothing: its contract is a statement about the
definitions. Of a trait's call the contract stands at the trait. Where memory was refused a call says so in its result.
"""


def told(docs):
    """Documentation as a part of a page, whose headings are the page's own."""
    return re.sub(r"(?m)^# (.*)$", r"**\1**", docs) + "\n" if docs else ""
