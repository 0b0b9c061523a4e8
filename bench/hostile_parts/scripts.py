"""The scripts that stand in `bench` for themselves: each allocation refused in turn, kills by process id under load, and the dearest requests.

They are called as a user calls them, with the program that was named, and their status says how it went. `bench/saves --refuse`,
`bench/seers --refuse` and `bench/no-memory` play programs of their own, which are proved and built by `--keep` of these scripts: the whole makes
them first. Where one isn't there, as in a quick run that names none, that is told, and nothing is counted.
"""
import os
import subprocess

from .program import Result, spread

BENCH = os.path.dirname(os.path.dirname(os.path.abspath(__file__)))
QUICK = [("refuse-allocations", "The first session", "The most specific entry of a table"), ("kill-server", "3"),
         ("kill-server", "--renew", "100", "3"), ("kill-peer", "3"), ("kill", "4"),
         ("worst", "--quick")]
WHOLE = [("refuse-allocations",), ("kill-server", "90"), ("kill-server", "--renew", "100", "100"), ("kill-peer", "60"),
         ("kill-peer", "--renew", "1000", "30"), ("kill", "50"), ("worst",)]
# Those that play programs of their own, and the words with which they do.
BUILT = {"saves": ["--refuse"], "seers": ["--refuse"], "no-memory": []}


def play_script(job):
    options, (name, *words) = job
    result = Result()
    env = {**os.environ, "PFD_PROGRAM": options.program}
    done = subprocess.run([os.path.join(BENCH, name), *words], env=env, capture_output=True, text=True, check=False)
    lines = (done.stdout + done.stderr).splitlines()
    result.check(f"bench/{name} {' '.join(words)}: status {done.returncode}: {lines[-12:]}", done.returncode == 0)
    for line in (lines if name == "refuse-allocations" else lines[-1:]) or [f"bench/{name} said nothing"]:
        result.tell(line)
    return result


def refusals(options):
    """The scripts whose programs were named, and what is told of the others."""
    named, result = [], Result()
    for name, words in BUILT.items():
        if name in options.built:
            named.append((name, *words, "--program", options.built[name]))
        else:
            result.tell(" ".join([f"bench/{name}", *words]) + f": NOT RUN, as its program isn't built, and --{name} names none")
    return named, result


def play(options):
    named, result = refusals(options)
    return result.add(spread(play_script, [(options, script) for script in options.few(QUICK, WHOLE) + named], options.processes))
