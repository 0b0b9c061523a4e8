"""Plays the rows of crates/pf_store_tests/stdin by the plain reading, and compares what each comes to with that crate's stored output: no
program is run.

The gate compares the program with the same output, so both come to the same. What the program tells before the rows isn't played here, nor the
row `cuts`.
"""
import os

from .examples import text_of
from .player import NotPlayed, Player, is_played
from .program import Result

CRATE = "crates/pf_store_tests"
FOLDER = os.path.join(os.path.dirname(os.path.dirname(os.path.dirname(os.path.abspath(__file__)))), CRATE, "data")


def told_rows(told, first):
    """The blocks of what is told, from the first row on: a row's line, and those behind it that two spaces stand before."""
    lines, blocks = told.removesuffix("\n").split("\n"), []
    for line in lines[lines.index(first) :]:
        if line.startswith("  "):
            blocks[-1].append(line)
        else:
            blocks.append([line])
    return blocks


def play(_options):
    result, player, rows = Result(), Player(FOLDER), text_of(f"{CRATE}/stdin").split("\n")
    blocks = told_rows(text_of(f"{CRATE}/stdout"), rows[0])
    result.check(f"{len(rows)} rows are told as {len(blocks)}", len(rows) == len(blocks))
    for row, so in zip(rows, blocks):
        try:
            result.compare(f"row {row}", player.play(row), so)
        except NotPlayed:
            result.tell(f"not played: {row[:40]} ..")
    result.wrong += player.wrong
    count = sum(is_played(row) for row in rows)
    result.tell(f"{count:,} rows, {player.images:,} images opened; {player.different():,} of those that the rows `images` don't make differ")
    return result
