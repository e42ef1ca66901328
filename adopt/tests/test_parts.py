"""The parts that stand by themselves: the interpreter, layouts, pages, and the form of the code."""

import ast
import pathlib

import pytest

from adopt.interpreter import Cut, Fault, Machine, read_program
from adopt.layout import read_layout
from adopt.pages import differing
from adopt.refusing import Refusal

from .compiling import TOP

TEXTS = sorted([*(TOP / "queues").glob("*.tso"), TOP / "docs/examples/ring.tso", TOP / "docs/examples/turns.tso"])
LONGEST = 40


def test_pages_are_what_the_parser_says() -> None:
    assert differing() == []


@pytest.mark.parametrize("path", sorted((TOP / "adopt").rglob("*.py")), ids=str)
def test_functions_are_short(path: pathlib.Path) -> None:
    for node in ast.walk(ast.parse(path.read_text())):
        if isinstance(node, ast.FunctionDef):
            assert (node.end_lineno or 0) - node.lineno < LONGEST, node.name


@pytest.mark.parametrize("path", TEXTS, ids=str)
def test_interpreter_runs_the_queues(path: pathlib.Path) -> None:
    machine = Machine(read_program(path.read_text()))
    first = machine.push(7)
    second = machine.pop()
    assert (first.is_done, second.is_done, second.value) == (True, True, 7) or path.stem == "dekker"


def text(push: str) -> Machine:
    return Machine(read_program(f".capacity 1\n.mode strict\n.array n 2 = 3, 4\n.push\n{push}\n.end\n.pop\nret\n.end\n.thread pop\n"))


@pytest.mark.parametrize(
    ("code", "answer"),
    [
        ("mov rax, -1\nadd rax, 1\njae no\nmov rax, 1\nret\nno:\nmov rax, 0\nret", True),
        ("mov rax, 5\ncmp rax, -1\njb yes\nmov rax, 0\nret\nyes:\nmov rax, 1\nret", True),
        ("mov rax, 5\ncmp rax, -1\njl yes\nmov rax, 0\nret\nyes:\nmov rax, 1\nret", False),
        ("mov rax, 3\nmov rcx, 9\nlock cmpxchg qword ptr [n], rcx\njne no\nmov rax, 1\nret\nno:\nmov rax, 0\nret", True),
        ("mov rcx, 1\nmov rax, qword ptr [n + rcx*8 - 8]\nsub rax, 2\nret", True),
        ("mov rax, 0x8000000000000000\ndec rax\njg yes\nmov rax, 1\nret\nyes:\nmov rax, 0\nret", True),
    ],
)
def test_interpreter_flags(code: str, answer: bool) -> None:
    assert text(code).push(0).is_done == answer


def test_interpreter_faults_and_cuts() -> None:
    with pytest.raises(Fault):
        text("mov rcx, 2\nmov rax, qword ptr [n + rcx*8]\nret").push(0)
    with pytest.raises(Cut):
        text("mov rax, 1\nagain:\njmp again bound 2\nret").push(0)


def test_layouts_by_hand() -> None:
    name, fields = read_layout("ring=head:0:8,slots:0x40:8*4/16")
    assert name == "ring" and (fields[1].offset, fields[1].count, fields[1].stride) == (64, 4, 16)
    with pytest.raises(Refusal):
        read_layout("ring=head")
