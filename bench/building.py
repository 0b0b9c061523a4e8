"""Finds the proved program, proves and builds a program of bench/ over the crates that it needs, in a folder of its own, and compiles small
libraries in C.

As a script it prints the path of the proved program, for scripts in sh: `pfd=$(python3 bench/building.py NAME) || exit`, where NAME is the
script that asks.
"""
import functools
import os
import shutil
import subprocess
import sys

ROOT = os.path.dirname(os.path.dirname(os.path.abspath(__file__)))
MAIN = (("main.txt", "src/main.rt"),)
# The crates that each program of bench/ needs.
NEEDS = {
    "appends": "pf_journal pf_disk",
    "judging": "pf_addr pf_rule pf_table pf_anchor",
    "lanes": "pf_addr pf_rule pf_table pf_anchor",
    "no_memory": "pf_book pf_line pf_core pf_state pf_ticket pf_anchor pf_rule pf_lanes pf_addr",
    "saves": "pf_book pf_store pf_line pf_core pf_snap pf_disk",
    "seers": "pf_book pf_store pf_line pf_core pf_anchor pf_rule left_right",
    "tables": "pf_addr pf_table",
    "versions": "pf_state pf_map pf_rule pf_addr pf_form",
}
# where ./pfd builds the program
PROGRAM = os.path.join(ROOT, "crates", "pfd_main", "out", "pfd")


def say(text):
    print(f"{os.path.basename(sys.argv[0])}: {text}", file=sys.stderr, flush=True)


def crates_below(names):
    """The lines of crates.txt of these crates and of all below them, in its order. Libraries of the kit have none."""
    with open(os.path.join(ROOT, "crates.txt"), encoding="utf-8") as it:
        lines = [line.strip() for line in it if ":" in line]
    needs = {line.partition(":")[0]: line.partition(":")[2].split() for line in lines}
    found, left = set(), list(names)
    while left:
        name = left.pop()
        if name in needs and name not in found:
            found.add(name)
            left += needs[name]
    return [line for line in lines if line.partition(":")[0] in found]


def crates_needed(name):
    """The crates that one needs, but for itself."""
    return [crate for crate in (line.partition(":")[0] for line in crates_below([name])) if crate != name]


# ---- whether something is there, and newer than what it is made of


def changed_at(tops):
    """When the newest of these files and folders, and of all within, was changed."""
    newest = 0
    for top in tops:
        paths = [top, *(os.path.join(at, name) for at, folders, names in os.walk(top) for name in (*folders, *names))]
        newest = max(newest, *(os.stat(it).st_mtime_ns for it in paths if os.path.exists(it)), 0)
    return newest


def sources_of(names):
    """Where the sources of these crates and of all below them are, as ./pfd looks for newer ones."""
    crates = [line.partition(":")[0] for line in crates_below(names)]
    parts = [os.path.join(ROOT, "crates", crate, part) for crate in crates for part in ("src", "specs", "proofs")]
    return [os.path.join(ROOT, "crates.txt"), os.path.join(ROOT, "HANDLES"), *parts]


def is_there(path, names, *more):
    """Whether a program is at this path that is no older than the sources of these crates and than these other ones."""
    return is_program(path) and changed_at([*sources_of(names), *more]) <= os.stat(path).st_mtime_ns


def is_program(path):
    return os.path.isfile(path) and os.access(path, os.X_OK)


def unproved(names):
    """Those of these crates and of all below them whose library isn't there, or is older than a source of theirs."""
    found = []
    for line in crates_below(names):
        crate = line.partition(":")[0]
        library = os.path.join(ROOT, "crates", crate, "out", "rlib")
        parts = [os.path.join(ROOT, "crates", crate, part) for part in ("src", "specs", "proofs")]
        if not os.path.isdir(library) or changed_at(parts) > changed_at([library]):
            found.append(crate)
    return found


def size_of(crates):
    """How many bytes the sources of these crates have."""
    found = (os.path.join(at, name) for crate in crates for at, _, names in os.walk(os.path.join(ROOT, "crates", crate)) for name in names)
    return sum(os.path.getsize(it) for it in found if it.endswith((".rt", ".antt")))


def time_of(names, proved=()):
    """About how long it takes to prove and build a program that needs these crates, in words, once those others are proved: all that ./pfd
    needs takes an hour."""
    lacking, count = [it for it in unproved(names) if it not in proved], len(crates_below(names))
    if not lacking:
        return "some minutes, since the libraries that it needs are there"
    minutes = 10 + 10 * round(5 * size_of(lacking) / size_of(crates_needed("pfd_main")))
    return f"about {minutes} minutes on four processors, since {len(lacking)} of the {count} libraries that it needs are missing or older than a source"


# ---- the proved program


@functools.cache
def program():
    """The path of the proved program: PFD_PROGRAM of the environment, or what ./pfd built. If there is none, or a source is newer, it says so
    and ends with status 2; nothing is proved. PFD_PROGRAM may name ./pfd or, as README has users do, the trial: then it is what ./pfd built."""
    named = os.environ.get("PFD_PROGRAM")
    if named and os.path.realpath(named) in [os.path.realpath(os.path.join(ROOT, it)) for it in ("pfd", "tools/trial")]:
        say(f"PFD_PROGRAM names {named}; this wants the proved program itself, which ./pfd builds")
        named = None
    path = os.path.abspath(named or PROGRAM)
    if named and not is_program(path):
        say(f"PFD_PROGRAM names {named}, and no program is there")
        sys.exit(2)
    if not named and not is_there(path, ["pfd_main"]):
        say("a source is newer than the built program" if is_program(path) else "no program is built")
        say("`./pfd --version` proves and builds it, which takes an hour or more on four processors; or PFD_PROGRAM=PATH names one that is built")
        sys.exit(2)
    return path


# ---- programs of bench/


def built(where, name, sources=MAIN, rows=""):
    """The path of the program bench/NAME_program, proved and built in the folder `where`, after standard error said how long that takes.
    Of each pair of sources the first is a file there, the second its place in the crate. `rows` is what the program reads in the run that
    shows that it is built."""
    needs = NEEDS[name]
    say(f"proving and building bench/{name}_program, which takes {time_of(needs.split())}")
    if unproved(needs.split()):
        say("these libraries are proved in a temporary folder, and again in the next run; `./pfd --version` makes them and keeps them")
    crates = os.path.join(where, "crates")
    lines = crates_below(needs.split())
    for line in lines:
        below = line.partition(":")[0]
        # (a library that `./pfd` left in out/ comes along: where it still holds, the crate isn't proved again)
        left_out = shutil.ignore_patterns("must-fail")
        shutil.copytree(os.path.join(ROOT, "crates", below), os.path.join(crates, below), ignore=left_out)
    folder = os.path.join(crates, name)
    for source, place in sources:
        target = os.path.join(folder, place)
        os.makedirs(os.path.dirname(target), exist_ok=True)
        shutil.copyfile(os.path.join(ROOT, "bench", f"{name}_program", source), target)
    shutil.copyfile(os.path.join(ROOT, "HANDLES"), os.path.join(where, "HANDLES"))
    with open(os.path.join(where, "crates.txt"), "w", encoding="utf-8") as it:
        it.write("\n".join([*lines, f"{name}: {needs}", ""]))
    ran = subprocess.run([os.path.join(ROOT, "tools", "rt-once"), "run"], cwd=folder, input=rows, stdout=subprocess.PIPE, stderr=subprocess.STDOUT, text=True)
    program = os.path.join(folder, "out", name)
    if not os.path.isfile(program):
        sys.exit(ran.stdout)
    return program


def compiled(source, folder, kind=("-shared", "-fPIC")):
    """The path of a library of a file of bench/ in C, which is left in this folder. A program can load it before all others. With another kind,
    as that of no words, it is a program."""
    library = os.path.join(folder, os.path.splitext(os.path.basename(source))[0] + ".so")
    subprocess.run(["cc", "-O2", *kind, "-o", library, os.path.join(ROOT, "bench", source)], check=True)
    return library


if __name__ == "__main__":
    sys.argv = sys.argv[1:] or sys.argv
    print(program())
