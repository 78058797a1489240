"""What the sources of the crates say, for `tools/make-docs`, `tools/check-docs` and `tools/check-refusals`: public calls with
their clauses, definitions of specs/ with the comments over them, and the texts of both. `tools/test-tools` tests it."""
import functools
import glob
import os
import re
import textwrap

# what is no code: comments, strings, raw strings and characters. A prime behind a name is part of it
HIDDEN = re.compile(
    r"""(?sx) //[^\n]* | /\* | (?<![\w◌'])b?r(\#*)".*?"\1 | (?:(?<![\w◌'])b)?"(?:[^"\\]|\\.)*"
    | (?<![\w◌'])b?'(?:[^'\\\n]|\\(?:u\{\w+\}|x\w\w|.))'"""
)
HIDDEN_IN_SPECS = re.compile(r"""--[^\n]*|(?<![\w◌'])"(?:[^"\\]|\\.)*\"""")
FUNCTION = re.compile(r"^( *)(pub(?:\([^)]*\))? )?(?:const |unsafe |extern +)*fn (\w+)")
CLAUSE = re.compile(r"^ *(requires|ensures)\*? (?:(\w+) )?\{")
BLOCK = re.compile(r"^(?:pub(?:\([^)]*\))? )?(?:unsafe )?(impl|trait|struct|enum)\b(.*)")
USE = re.compile(r"(?m)^ *(?:ghost )?use Rattle\.(\w+)\.specs\.([\w.]+)(?:\.\{([^}]*)\}| as (\w+))")
IMPORTED = re.compile(r"([\w◌']+)(?: as (\w+))?")
DEFINITION = re.compile(r"^( *)(?:(?:abbrev |unfoldable )pub|pub (?=record |data ))(?: ?(?:record|data))? ([\w◌']+)")
PLAIN = re.compile(r"^()pub ([\w◌']+) :")
# ghost items that say how a value is seen or compared, and nothing that a caller meets
UNSEEN = set("view laws eq from_gives size coded inverse inverse_ok respects_eq hash_input is_clone".split())
WORD = re.compile(r"[\w◌']+(?:\.[\w◌']+)?")
GENERICS = re.compile(r"<(?:->|(?!->)[^<>])*>")


def text_of(path):
    with open(path, encoding="utf-8") as it:
        return it.read()


def code_of(text, hidden=HIDDEN):
    """A text with blanks in place of what is no code: each line is as long as it was."""
    parts, at = [], 0
    while found := hidden.search(text, at):
        end = end_of_comment(text, found.start()) if found[0] == "/*" else found.end()
        parts += [text[at : found.start()], re.sub(r"[^\n]", " ", text[found.start() : end])]
        at = end
    return "".join(parts) + text[at:]


def end_of_comment(text, at):
    """Where a comment ends that begins here with `/*`: there may be others in it."""
    depth = 0
    for it in re.compile(r"/\*|\*/").finditer(text, at):
        depth += 1 if it[0] == "/*" else -1
        if depth == 0:
            return it.end()
    return len(text)


class Call:
    """A function with its documentation and its clauses: `text` from its name to its body, and the code of that."""

    def __init__(self, path, kind, owner, trait, public, name, docs):
        self.path, self.kind, self.owner, self.trait = path, kind, owner, trait
        self.public, self.name, self.docs = public, name, docs
        self.clauses = []
        self.text = self.code = ""
        self.line = 0

    @property
    def title(self):
        return f"{self.owner}::{self.name}" if self.owner else self.name

    def names_of(self, word):
        """The names of its clauses of a kind; one may have none."""
        return [name for kind, name in self.clauses if kind == word]


def owner_of(line):
    """What the head of a top-level item opens: its kind, the type or trait, and the trait that it implements."""
    found = BLOCK.match(line)
    if not found:
        return None
    head = found[2]
    while GENERICS.search(head):
        head = GENERICS.sub("", head)
    trait, is_for, owner = head.split("{")[0].split(" where ")[0].rpartition(" for ")
    return found[1], last_name(owner), last_name(trait) if is_for else None


def last_name(path):
    """The name that a path of a type ends with, as `Name` of `&'a mut module::Name`."""
    names = [it for it in re.findall(r"(?<!['\w])\w+(?:::\w+)*", path) if it not in ("mut", "dyn")]
    return names[0].split("::")[-1] if names else ""


def docs_above(lines, at):
    """The documentation over a line, as one text with its paragraphs apart."""
    found = []
    while at > 0 and (lines[at - 1].lstrip().startswith(("///", "#[", "//"))):
        at -= 1
        line = lines[at].strip()
        if line.startswith("///"):
            found.insert(0, line[3:].strip())
    return "\n".join(found)


def calls_in(path):
    """The functions of a file."""
    text = text_of(path)
    lines, codes = text.split("\n"), [it.rstrip() for it in code_of(text).split("\n")]
    block = (None, "", None)
    for at, code in enumerate(codes):
        if code.startswith("}"):
            block = (None, "", None)
        elif BLOCK.match(code):
            head = head_from(codes, at)
            block = block if head.endswith(("}", ";")) else owner_of(head)
        found = FUNCTION.match(code)
        if found:
            indent, public, name = found.groups()
            kind, owner, trait = block if indent else (None, "", None)
            call = Call(path, kind, owner, trait, (public or "").strip(), name, docs_above(lines, at))
            call.line = at + 1
            end = at + read_head(call, codes[at:], indent)
            call.text, call.code = "\n".join(lines[at:end]), "\n".join(codes[at:end])
            yield call


def head_from(codes, at):
    """What begins on a line of code, up to its first brace or its end, as one line."""
    end = next((it for it in range(at, len(codes)) if "{" in codes[it] or codes[it].endswith(";")), at)
    return " ".join(it.strip() for it in codes[at : end + 1])


def read_head(call, codes, indent):
    """Takes the clauses of a function from the lines of code that begin with it, and tells how many lines stand up to its
    body, with that which begins it."""
    depth = 0
    for count, code in enumerate(codes, 1):
        clause = CLAUSE.match(code)
        if clause and depth == 0:
            call.clauses.append((clause[1], clause[2]))
        depth += code.count("{") - code.count("}")
        if code in (indent + "{", indent + "{}") or depth == 0 and code.endswith(";"):
            return count
        if not call.clauses and (code.endswith(" {") or depth == 0 and code.endswith("}")):
            return count
    return len(codes)


class Definition:
    """A definition of specs/ with the comment over it."""

    def __init__(self, crate, module, name, comment, section):
        self.crate, self.module, self.name, self.comment, self.section = crate, module, name, comment, section
        self.body = ""
        self.line = 0

    @property
    def key(self):
        return self.crate, self.module, self.name


def sentence_of(lines):
    return " ".join(it.strip().removeprefix("--").strip() for it in lines)


def definitions_in(crate, module, text):
    """The definitions of a module, in their order."""
    lines = text.split("\n")
    comment, section, current, found = [], "", None, []
    for at, line in enumerate(lines, 1):
        if line.strip().startswith("-- ----"):
            section, comment = line.strip().removeprefix("-- ----").strip(), []
        elif line.strip().startswith("--"):
            comment.append(line)
        else:
            head = DEFINITION.match(line) or PLAIN.match(line)
            if head:
                current = Definition(crate, module, head[2], sentence_of(comment), section)
                current.line = at
                found.append(current)
            if current:
                current.body += line + "\n"
            comment = []
    return found


def header_of(text):
    """The comment that a module begins with."""
    return sentence_of(re.match(r"(?:--.*\n)*", text)[0].rstrip("\n").split("\n"))


def imported(text):
    """What the `use` lines of a text name: the name there, and the definition; of a module's alias the module alone."""
    found = {}
    for crate, module, names, alias in USE.findall(text):
        if alias:
            found[alias] = crate, module, None
        for name, other in IMPORTED.findall(names):
            found[other or name] = crate, module, name
    return found


def named_in(code, names):
    """The definitions that code names, each once."""
    found = {}
    for word in WORD.findall(code):
        first, _, last = word.partition(".")
        crate, module, name = names.get(first, (None, None, None))
        if crate and (name or last):
            found[crate, module, name or last] = None
    return list(found)


class Crate:
    """What a crate defines and makes public."""

    def __init__(self, name):
        self.name = name
        self.folder = f"crates/{name}"
        self.modules = {}
        for path in sorted(glob.glob(f"{self.folder}/specs/**/*.antt", recursive=True)):
            self.modules[path[len(f"{self.folder}/specs/") : -len(".antt")].replace("/", ".")] = text_of(path)
        self.definitions = {it: definitions_in(name, it, text) for it, text in self.modules.items()}
        paths = sorted(glob.glob(f"{self.folder}/src/**/*.rt", recursive=True))
        self.sources = {it: text_of(it) for it in paths if "/tests" not in it}
        self.codes = {path: code_of(text) for path, text in self.sources.items()}
        self.types = {it for code in self.codes.values() for it in re.findall(r"\b(?:struct|enum|trait|type) (\w+)", code)}
        self.calls = [call for path in self.sources for call in calls_in(path)]

    @functools.cached_property
    def exported(self):
        """The names that the page of a library makes public, and its functions for C; of a program what its modules say is
        public."""
        page = self.codes.get(f"{self.folder}/src/lib.rt")
        every = "\n".join(self.codes.values())
        if page is None:
            return set(re.findall(r"(?m)^pub (?:(?:const |unsafe )*fn|struct|enum|trait) (\w+)", every))
        found = set(re.findall(r"(?m)^pub (?:unsafe )?extern +fn (\w+)", every))
        for line in re.findall(r"(?m)^pub use ([^;]*);", page):
            found |= {other or name for name, other in re.findall(r"(\w+)(?: as (\w+))?\s*(?=[,}]|$)", line)}
        return found

    def is_exported(self, call):
        """Whether a function is reached from the page: it is named there, or its type or trait is."""
        if call.kind == "trait":
            return call.owner in self.exported
        if call.trait:
            return call.owner in self.exported and bool(call.clauses)
        return call.public == "pub" and (call.owner or call.name) in self.exported

    @functools.cached_property
    def public(self):
        return [it for it in self.calls if self.is_exported(it)]

    def cited(self, others=()):
        """Each definition that the contract of a public function, or of one of these others, cites, or by which contracts
        see a public type or trait, with the title of what cites it; and whether that is what a type keeps."""
        for call in self.calls:
            if self.is_exported(call) or call.title in others:
                for key in named_in(call.code, imported(self.codes[call.path])):
                    yield key, call.title, False
        for code in self.codes.values():
            for title, item, body, _ in ghosts_of(code):
                if title in self.exported and item not in UNSEEN:
                    for key in named_in(body, imported(code)):
                        yield key, title, item == "invariant"


class Passage:
    """A part of a source: what it is called, its file and first line, its text, and the lines of `module` over that."""

    def __init__(self, title, path, line, text, over=""):
        self.title, self.path, self.line, self.text, self.over = title, path, line, text, over


def to_empty_line(lines, at):
    """The lines from this one on, up to the next empty one."""
    end = next((it for it in range(at, len(lines)) if not lines[it].strip()), len(lines))
    return "\n".join(lines[at:end])


def modules_over(lines, at):
    """The lines of `module` that a definition stands under, each with those that it goes on in."""
    found, depth = [], len(lines[at]) - len(lines[at].lstrip())
    while depth > 0:
        at -= 1
        if lines[at].startswith(" " * (depth - 2) + "module "):
            depth -= 2
            end = next(it for it in range(at, len(lines)) if lines[it].endswith(" where"))
            found.insert(0, "\n".join(lines[at : end + 1]))
    return "\n".join(found)


def head_and_clauses(call):
    """The signature of a function, and each of its clauses: its kind, its name and its text."""
    head, clauses, depth = [], [], 0
    for line, code in zip(call.text.split("\n"), call.code.split("\n")):
        clause = CLAUSE.match(code) if depth == 0 else None
        if clause:
            clauses.append((clause[1], clause[2], [line]))
        elif depth > 0:
            clauses[-1][2].append(line)
        elif not clauses:
            head.append(line)
        depth += code.count("{") - code.count("}")
    return "\n".join(head), [(kind, name, "\n".join(those).rstrip(";")) for kind, name, those in clauses]


def definition_passage(crate, title):
    """The definition of a title `Module.Name`, if there is one."""
    module, _, name = title.rpartition(".")
    for it in crate.definitions.get(module, ()):
        if it.name == name:
            lines = crate.modules[module].split("\n")
            path = f"{crate.folder}/specs/{module.replace('.', '/')}.antt"
            at = it.line - 1
            return Passage(title, path, it.line, to_empty_line(lines, at), modules_over(lines, at))
    return None


def call_passage(crate, title, names):
    """The function of a title, whole; or, where some are named, those clauses of what it says alone. Nothing where one of them
    is not there."""
    for call in crate.calls:
        if call.title == title:
            head, clauses = head_and_clauses(call)
            those = [it[2] for it in clauses if not names or (it[0] == "ensures" and it[1] in names)]
            text = textwrap.dedent("\n".join(those if names else [head, *those]))
            is_whole = {*names} <= {*call.names_of("ensures")}
            return Passage(title, call.path, call.line, text) if is_whole else None
    return None


def type_passage(crate, title):
    """The public struct or enum of a name, without the comments in it, if there is one."""
    for path, source in crate.sources.items():
        found = re.search(rf"(?ms)^pub (?:struct|enum) {title}\b.*?(?:^\}}|;$)", crate.codes[path])
        if found:
            lines = [it for it in source[found.start() : found.end()].split("\n") if not it.lstrip().startswith("//")]
            return Passage(title, path, source.count("\n", 0, found.start()) + 1, "\n".join(lines))
    return None


def ghosts_of(text):
    """The ghost items of traits, and of impls: the trait or the type, the item, what it is, and its whole text."""
    code = code_of(text)
    for block in re.finditer(r"(?ms)^(?:(?:unsafe )?impl|(?:pub(?:\([^)]*\))? )?trait)\b[^{]*\{\n(.*?)^\}", code):
        _, owner, _ = owner_of(" ".join(block[0].split("{")[0].split()))
        for item in re.compile(r"(?ms)^    ghost (\w+)(?: =|:) (\{.*?\});$").finditer(code, *block.span(1)):
            yield owner, item[1], text[slice(*item.span(2))], textwrap.dedent(text[slice(*item.span())])


def in_order(crate):
    """The modules of a crate's specs/, each behind those that it uses."""
    found = []

    def visit(module):
        if module in found or module in open_ones:
            return
        open_ones.append(module)
        for other, used, _ in sorted(set(imported(crate.modules[module]).values()), key=str):
            if other == crate.name and used in crate.modules:
                visit(used)
        found.append(module)

    open_ones = []
    for module in sorted(crate.modules):
        visit(module)
    return [it for it in found if crate.definitions[it]]


def listed_crates():
    """What each crate names in crates.txt."""
    lines = [it.partition(":") for it in text_of("crates.txt").split("\n") if it.strip()]
    return {names.split()[0]: used.split() for names, _, used in lines}


def all_crates():
    """The crates, those below first, as crates.txt has them."""
    return {name: Crate(name) for name in listed_crates() if os.path.isdir(f"crates/{name}")}


def closure(crates, others):
    """The definitions that contracts cite, of the public calls of these crates and of the others that are named for each,
    and those that these rest on (but not those that what a type keeps rests on): all definitions; by its key what cites
    each one, with its crate; and which of these definitions name it."""
    known = {it.key: it for crate in crates.values() for those in crate.definitions.values() for it in those}
    by, through, following = {}, {}, []
    for name, those in others.items():
        for key, title, is_kept in crates[name].cited(those):
            if key in known:
                by.setdefault(key, []).append((name, title))
                following += [] if is_kept else [key]
    followed = set()
    while following:
        key = following.pop(0)
        if key in followed:
            continue
        followed.add(key)
        for other in rests_on(crates, known[key]):
            if other in known:
                following.append(other)
                through.setdefault(other, []).append(known[key])
    return known, by, through


def rests_on(crates, definition):
    """The definitions that one names."""
    crate = crates[definition.crate]
    names = {it.name: it.key for it in crate.definitions[definition.module]}
    names.update(imported(crate.modules[definition.module]))
    return [it for it in named_in(code_of(definition.body, HIDDEN_IN_SPECS), names) if it != definition.key]
