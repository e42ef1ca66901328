"""Compiles queues for the tests, and adopts them."""

import functools
import pathlib
import shutil
import subprocess
import tempfile

import pytest

from adopt.adopting import Adopted, Adoption, Options
from adopt.trying import try_text

TOP = pathlib.Path(__file__).resolve().parent.parent.parent
QUEUES = TOP / "adopt/tests/queues"
LEVELS = ("-O1", "-O2", "-O3", "-Os")
COMPILERS = {".c": ("gcc", "clang"), ".cpp": ("g++", "clang++"), ".rs": ("rustc",)}


@functools.cache
def folder() -> pathlib.Path:
    """Where objects go; it is left to the system to clear."""
    return pathlib.Path(tempfile.mkdtemp(prefix="tsoq-adopt-tests-"))


@functools.cache
def compiled(source: pathlib.Path, compiler: str, level: str) -> pathlib.Path:
    """The object of a source."""
    if shutil.which(compiler) is None:
        pytest.skip(f"{compiler} is not there")
    made = folder() / f"{source.stem}{source.suffix}.{compiler}{level}.o"
    flags = ["-g", "-c", level]
    if compiler == "rustc":
        flags = ["-g", "-O", "--emit", "obj", "--crate-type", "lib", "-C", "codegen-units=1", "-C", "panic=abort"]
    ran = subprocess.run([compiler, *flags, str(source), "-o", str(made)], capture_output=True, text=True)
    assert ran.returncode == 0, ran.stderr
    return made


def adopted(path: pathlib.Path, options: Options | None = None, tries: int = 200) -> Adopted:
    """The text of an object, tried."""
    options = options or Options()
    made = Adoption(path, options).adopt()
    if tries:
        try_text(made, options, tries)
    return made


def of_code(code: str, options: Options | None = None, tries: int = 200, compiler: str = "gcc", level: str = "-O2") -> Adopted:
    """The text of C code that is given here."""
    source = folder() / f"code{abs(hash(code))}.c"
    source.write_text(HEAD + code)
    return adopted(compiled(source, compiler, level), options, tries)


HEAD = """
#include <stdatomic.h>
#include <stdbool.h>
#include <stdint.h>
"""


def parsed(text: str) -> subprocess.CompletedProcess[str]:
    """What `tsoq parse` says of a text."""
    return subprocess.run([str(TOP / "dist/tsoq"), "parse", "-", "--verbose"], input=text, capture_output=True, text=True)


def survey(text: str, *words: str) -> list[str]:
    """What `tsoq survey` says of a text, line by line."""
    path = folder() / f"text{abs(hash(text))}.tso"
    path.write_text(text)
    ran = subprocess.run([str(TOP / "dist/tsoq"), "survey", str(path), *words], capture_output=True, text=True)
    assert ran.returncode in (0, 1), ran.stderr
    return ran.stdout.splitlines()


def body(made: Adopted, name: str) -> str:
    """The instructions of push or pop, without comments."""
    lines = made.text.split(f".{name}\n")[1].split(".end")[0].splitlines()
    return "\n".join(line.split(";")[0].strip() for line in lines)
