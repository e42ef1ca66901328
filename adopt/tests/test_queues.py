"""Whole queues, of each compiler at each level: they come in with no line edited, and do what the compiled code does."""

import pathlib
import re

import pytest

from adopt.adopting import Options

from .compiling import COMPILERS, LEVELS, QUEUES, TOP, adopted, compiled, parsed, survey

OPTIONS = {"status.c": Options(done=0, init="set_up")}
SOURCES = sorted([*QUEUES.glob("*.*"), TOP / "docs/examples/ring.cpp", TOP / "docs/examples/ring.rs"])
CASES = [
    (it, compiler, level) for it in SOURCES for compiler in COMPILERS[it.suffix] for level in (LEVELS if it.suffix != ".rs" else ("-O",))
]
# Beside which text by hand a queue stands, and how it is surveyed.
BY_HAND = {"ring.cpp": "docs/examples/ring.tso", "ring.rs": "docs/examples/ring.tso", "cells.cpp": "queues/vyukov.tso"}
MOST_STATES = 1.5


@pytest.mark.parametrize(("source", "compiler", "level"), CASES, ids=lambda it: it.name if isinstance(it, pathlib.Path) else it)
def test_comes_in(source: pathlib.Path, compiler: str, level: str) -> None:
    made = adopted(compiled(source, compiler, level), OPTIONS.get(source.name))
    ran = parsed(made.text)
    assert ran.returncode == 0, ran.stderr


@pytest.mark.parametrize("name", sorted(BY_HAND))
def test_states_beside_a_text_by_hand(name: str) -> None:
    """The same verdicts, client by client, and not many more states."""
    source = next(it for it in SOURCES if it.name == name)
    compiler = COMPILERS[source.suffix][0]
    made = adopted(compiled(source, compiler, "-O2" if source.suffix != ".rs" else "-O"), tries=0)
    words = ["--all", "--threads", "2", "--calls", "3", "--producers", "1", "--consumers", "1", "--mode", "weak"]
    hand = survey((TOP / BY_HAND[name]).read_text(), *words)
    mine = survey(made.text, *words)
    assert [verdict(it) for it in mine] == [verdict(it) for it in hand]
    assert records(mine) <= MOST_STATES * records(hand)


def verdict(line: str) -> str:
    return re.sub(r"\d+ (records|labels)", "", line)


def records(lines: list[str]) -> int:
    return sum(int(it.group(1)) for line in lines for it in [re.search(r"(\d+) records", line)] if it)
