"""Compares README.md, docs/*.md and man/*.8 with the sources, without any program: whether each name in backticks is in the sources, whether
each link leads to a file and a heading that are there, and how many words there are.

A text in backticks is cut at blanks, and each piece that looks like a name is looked up:

- `--size` is an option: of pfd (pfd_words), of rt, or of a script in bench, tools or examples. After a program's name it is one of that program.
- `bench/saves`, `pf_core/specs/Cores.antt` and `laws.rt` are files or folders: a path from the top or from crates/, or the end of such a path.
  A part in capitals, as NAME, is any name. `10/8` and `web/a` are no files: they begin with no folder of this repository, and have no ending.
- `Core::step`, `pf_core::laws`, `is_allowed_in`, `GROUP_LIMIT` and `PlainDurable` are names: they have `::` or `_`, or begin with a capital and
  have a small letter. Such a name is a crate, or something that a source defines: a function, type, trait, constant, module, field or variant
  in crates/*/src, a definition in crates/*/specs or proofs, or a wrong body (*.edit). Or it is a type of Rattle's libraries that a source uses.
  A `Type::name` is a variant of the type, or a function or constant in an `impl` of it or of a trait that it has; in `crate::name` the crate
  has the name.

Commands in blocks of code are looked at for files and options. Other texts, as `begin filter -`, `err full` or `10.0.0.0/8`, are left alone.
"""
import collections
import functools
import glob
import os
import re
import shutil

TOP = os.path.dirname(os.path.dirname(os.path.abspath(__file__)))
MOST_WORDS = 35_000
LIBRARIES = "/opt/rattle/rlibs"
SCRIPTS = ("bench", "bench/hostile_parts", "tools", "examples", "examples/fleet")
FOLDERS = (".ci", "bench", "crates", "docs", "examples", "man", "tools")
# What looks like a name of the sources and is another's, as pf(4)'s, each with whose it is.
NOT_OURS = {}
ENDINGS = ("rt", "antt", "md", "py", "edit", "rs")


def text_of(path):
    with open(path, encoding="utf-8") as it:
        return it.read()


@functools.cache
def scripts():
    """The scripts of this repository."""
    found = [f"{TOP}/pfd", *(it for folder in SCRIPTS for it in glob.glob(f"{TOP}/{folder}/*"))]
    return list(filter(os.path.isfile, found))


def documents():
    paths = [f"{TOP}/README.md", *sorted(glob.glob(f"{TOP}/docs/*.md"))]
    return [os.path.relpath(it, TOP) for it in paths]


def pages():
    return sorted(os.path.relpath(it, TOP) for it in glob.glob(f"{TOP}/man/*.8"))


# ---- files


@functools.cache
def paths():
    """All files and folders of the repository, each from the top on, behind a `/`."""
    found = {f"/{it}" for it in os.listdir(TOP) if it in FOLDERS or os.path.isfile(f"{TOP}/{it}")}
    for folder in FOLDERS:
        for at, folders, names in os.walk(f"{TOP}/{folder}"):
            folders[:] = [it for it in folders if it not in ("out", "__pycache__")]
            found |= {f"{at.removeprefix(TOP)}/{it}" for it in (*folders, *names)}
    return found


@functools.cache
def first_parts():
    """What the path of a file can begin with."""
    return {*os.listdir(TOP), *os.listdir(f"{TOP}/crates"), "src", "specs", "proofs", "must-fail"}


def looks_like_a_file(word):
    first = word.removeprefix("./").partition("/")[0]
    if word.rpartition(".")[2] in ENDINGS and re.fullmatch(r"[\w*./-]+\.\w+", word):
        return True
    return "/" in word and (first in first_parts() or re.fullmatch(r"pfd?_\w+", first) is not None)


def is_file(word):
    word = word.removeprefix("./").rstrip("/")
    if "/out/" in f"/{word}/":
        # what is made there isn't kept
        word = f"/{word}/".partition("/out/")[0].removeprefix("/")
        if not word:
            return True
    parts = ["[^/]+" if re.fullmatch(r"[A-Z]+", it) and f"/{it}" not in paths() else re.escape(it).replace(r"\*", "[^/]*") for it in word.split("/")]
    pattern = re.compile(f"(?:/.*)?/{'/'.join(parts)}")
    return f"/{word}" in paths() or any(pattern.fullmatch(it) for it in paths())


# ---- the sources


def without_generics(head):
    """`impl Trait for Type where ..` of `impl<T: Is> Trait<T> for Type<T> where ..`."""
    head, count = head.replace("->", ""), 1
    while count:
        head, count = re.subn(r"<[^<>]*>", "", head)
    return head


def last_word(text):
    return ([""] + re.findall(r"\w+", text))[-1]


class Sources:
    """The names that the sources define: of each crate, of all, and the members of each type."""

    def __init__(self):
        self.crates, self.names, self.types = {}, set(), set()
        self.members, self.traits = collections.defaultdict(set), collections.defaultdict(set)
        self.libraries = {it.removesuffix(".rlib") for it in os.listdir(LIBRARIES)} if os.path.isdir(LIBRARIES) else set()
        for line in text_of(f"{TOP}/crates.txt").splitlines():
            crate, colon, below = line.partition(":")
            if colon:
                self.crates[crate] = {crate}
                self.libraries |= set(below.split())
        for path in sorted(paths()):
            found = self.names_in(path)
            self.names |= found
            if path.startswith("/crates/"):
                self.crates.get(path.split("/")[2], set()).update(found)
        self.names |= self.libraries

    def names_in(self, path):
        """The names that a file or folder defines; its own, where it is a module."""
        stem, ending = os.path.splitext(path.rpartition("/")[2])
        if ending == ".rt" or re.fullmatch(r"/bench/\w+_program/main.txt", path):
            return {stem} | self.names_of_code(text_of(f"{TOP}{path}"))
        if ending == ".antt":
            return {stem} | names_of_definitions(text_of(f"{TOP}{path}"))
        if ending == ".edit" or path.startswith("/crates/") and not ending:
            return {stem}
        if f"{TOP}{path}" in scripts():
            return set(re.findall(r"\b[A-Z][A-Z0-9]*_[A-Z0-9_]+\b", text_of(f"{TOP}{path}")))
        return set()

    def names_of_code(self, text):
        text = re.sub(r"""'\\?"'|"(?:[^"\\]|\\.)*"|//[^\n]*""", "", text)
        names = set(re.findall(r"\b(?:fn|struct|enum|trait|type|const|static|mod|macro_rules!) +(\w+)", text))
        # (types of Rattle's libraries among them)
        names |= set(re.findall(r"\b[A-Z]\w*[a-z]\w*\b", text))
        for line in re.findall(r"^ *(?:pub )?use ([^;]*);", text, re.M):
            names |= set(re.findall(r"\w+", line))
        for indent, word, head, body in re.findall(r"^( *)(?:pub(?:\(\w+\))? )?(impl|trait|enum|struct)\b([^{};]*)\{\n(.*?)^\1\}", text, re.M | re.S):
            head = re.split(r"\swhere\s", without_generics(head))[0]
            if word == "impl":
                *traits, name = map(last_word, head.split(" for "))
                self.traits[name] |= set(traits)
            else:
                name = head.split(":")[0].split()[0]
                self.types.add(name)
            found = set(re.findall(r"\b(?:fn|const) (\w+)", body))
            if word in ("enum", "struct"):
                found = set(re.findall(rf"^{indent}    (?:pub(?:\(\w+\))? )?(\w+)", body, re.M))
                names |= found
            self.members[name] |= found
        return names

    def is_name(self, name):
        parts = name.split("::")
        if not all(part in self.names for part in parts):
            return False
        if parts[0] in self.crates and not all(part in self.crates[parts[0]] for part in parts):
            return False
        return all(self.is_member(*pair) for pair in zip(parts, parts[1:]))

    def is_member(self, name, member):
        """Whether a type has this member. Of a type of Rattle's libraries, and of a module, that isn't known."""
        return name not in self.types or any(member in self.members.get(it, ()) for it in (name, *self.traits[name]))


def names_of_definitions(text):
    text = re.sub(r"(?<!\S)--[^\n]*", "", text)
    names = set(re.findall(r"^ *(?:(?:abbrev|pub|data|record|opaque) +)*([\w'-]+)(?= *:| +[({])", text, re.M))
    names |= set(re.findall(r"\b(?:data|record|abbrev|pub) +([\w'-]+)", text))
    return names | {name for line in re.findall(r"^use (.*)", text, re.M) for name in re.findall(r"[\w'-]+", line)}


# ---- options


@functools.cache
def options_of(path):
    return set(re.findall(r"(?<![\w-])--[a-z][\w-]*", text_of(path)))


@functools.cache
def options_of_pfd():
    parameters = re.findall(r"\w: Parameter = Parameter \{\n(.*?)\n\}", text_of(f"{TOP}/crates/pfd_words/src/subcommands.rt"), re.S)
    named = {name for it in parameters if "is_option: false" not in it for name in re.findall(r'name: "([\w-]+)"', it)}
    return {f"--{it}" for it in named} | {"--help", "--version"}


@functools.cache
def options_of_rt():
    rt = shutil.which("rt")
    files = [it for it in (rt, f"{os.path.dirname(rt)}/rtlib.py") if os.path.isfile(it)] if rt else []
    return set().union(*map(options_of, files))


@functools.cache
def all_options():
    return options_of_pfd() | options_of_rt() | set().union(*map(options_of, scripts()))


def options_behind(program):
    """The options that a text may have which begins with this word."""
    path = f"{TOP}/{program}"
    if program in ("pfd", "./pfd"):
        return options_of_pfd()
    if program == "rt":
        return options_of_rt() or all_options()
    if "/" in program and os.path.isfile(path):
        return options_of(path)
    return all_options()


# ---- one text in backticks


def looks_like_a_name(word):
    return "::" in word or "_" in word.strip("_") or re.match(r"[A-Z]\w*[a-z]", word) is not None


def wrong_in(item, sources=None):
    """What is no name in a text in backticks, of all that looks like one. Without sources it is what is no file and no option."""
    words = item.split()
    options = options_behind(words[0].strip("()")) if words else set()
    for word in words:
        word = word.strip("()[],;:\"'")
        if word in NOT_OURS or word.startswith(("/", "-")) and not word.startswith("--"):
            continue
        if word.startswith("--"):
            option = re.match(r"--[a-z][\w-]*", word)
            if option and option[0] not in options:
                yield f"no option {option[0]}"
        elif looks_like_a_file(word):
            if not is_file(word):
                yield f"no file {word}"
        elif "/" not in word and sources:
            for name in re.findall(r"[A-Za-z_][\w-]*(?:::[A-Za-z_]\w*)*", word):
                if name not in NOT_OURS and looks_like_a_name(name) and not sources.is_name(name):
                    yield f"no name {name}"


def without_blocks(text):
    """The text without its blocks of code, of which only the line breaks stay."""
    return re.sub(r"^ *(```+)[^\n]*\n.*?^ *\1`*$", lambda it: "\n" * it[0].count("\n"), text, flags=re.M | re.S)


def commands_in(text):
    """The commands in blocks of code, each up to a pipe or a comment, with its line's number."""
    is_within = False
    for number, line in enumerate(text.splitlines(), 1):
        if line.lstrip().startswith("```"):
            is_within = not is_within
        elif is_within or line.startswith("    "):
            command = re.match(r" *(?:\$ )?((?:\./|pfd |rt |bench/|examples/|tools/)[^#|;&]*)", line)
            if command:
                yield number, command[1]


def line_at(text, place):
    return text[:place].count("\n") + 1


def wrong_names(name, sources):
    whole = text_of(f"{TOP}/{name}")
    text = without_blocks(whole)
    # (what is in backticks ends before the next paragraph, row or item)
    for found in re.finditer(r"(?<!`)(`+)(?!`)((?:.|\n(?![\n|*-]))+?)(?<!`)\1(?!`)", text):
        for wrong in wrong_in(found[2].replace("\\|", "|"), sources):
            where = "" if wrong.endswith(f" {found[2]}") else f", in `{found[2]}`"
            yield f"{name}:{line_at(text, found.start())}: {wrong}{where}"
    for number, command in commands_in(whole):
        for wrong in wrong_in(command):
            yield f"{name}:{number}: {wrong}"


def wrong_in_page(name):
    """What a manual page names: paths, and options of pfd."""
    for number, line in enumerate(text_of(f"{TOP}/{name}").splitlines(), 1):
        path = re.match(r"\.Pa (\S+)", line)
        if path and not path[1].startswith("/") and not is_file(path[1]):
            yield f"{name}:{number}: no file {path[1]}"
        for option in re.findall(r"Fl (?:\w \| )?-(\w[\w-]*)", line):
            if f"--{option}" not in options_of_pfd():
                yield f"{name}:{number}: no option --{option}"


# ---- links and words


@functools.cache
def anchors_of(path):
    """The anchors of a document's headings, as GitHub makes them."""
    found, times = set(), collections.Counter()
    for heading in re.findall(r"^#{1,6} +(.*?) *#*$", without_blocks(text_of(path)), re.M):
        heading = re.sub(r"!?\[([^]]*)\]\([^)]*\)", r"\1", heading)
        anchor = re.sub(r"[^\w\- ]", "", heading.lower()).replace(" ", "-")
        found.add(f"{anchor}-{times[anchor]}" if times[anchor] else anchor)
        times[anchor] += 1
    return found | set(re.findall(r'<a (?:name|id)="([^"]*)"', text_of(path)))


def wrong_links(name):
    text = without_blocks(text_of(f"{TOP}/{name}"))
    plain = re.sub(r"`[^`\n]*`", lambda it: "x" * len(it[0]), text)
    for found in re.finditer(r"\]\(<?([^)\s>]+)>?[^)]*\)|^\[[^]]+\]: *(\S+)", plain, re.M):
        link = found[1] or found[2]
        if re.match(r"[a-z]+:", link):
            continue
        path, _, anchor = link.partition("#")
        place = f"{name}:{line_at(plain, found.start())}"
        target = os.path.normpath(os.path.join(TOP, os.path.dirname(name), path)) if path else f"{TOP}/{name}"
        if not os.path.exists(target):
            yield f"{place}: a link to {link}: no such file"
        elif anchor and not (os.path.isfile(target) and anchor in anchors_of(target)):
            yield f"{place}: a link to {link}: no such heading"


def word_count():
    return sum(len(text_of(f"{TOP}/{it}").split()) for it in documents())


def all_wrong(names):
    """All that is wrong in these documents, or, with no names, in all of them and in how many words they have."""
    sources = Sources()
    for name in names or [*documents(), *pages()]:
        if name.endswith(".md"):
            yield from wrong_names(name, sources)
            yield from wrong_links(name)
        else:
            yield from wrong_in_page(name)
    if not names and word_count() > MOST_WORDS:
        yield f"README.md and docs: {word_count():,} words, and at most {MOST_WORDS:,} are wanted"
