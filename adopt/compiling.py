"""Compiles a source file to an object with debug information."""

import pathlib
import shlex
import shutil
import subprocess

from .refusing import Refusal

FLAGS = {
    ".c": ("cc", "-O2 -g -c"),
    ".cpp": ("c++", "-O2 -g -c"),
    ".cc": ("c++", "-O2 -g -c"),
    ".cxx": ("c++", "-O2 -g -c"),
    ".rs": ("rustc", "-O -g --emit obj --crate-type lib -C codegen-units=1 -C panic=abort"),
}


def command_of(path: pathlib.Path, made: pathlib.Path, compiler: str, flags: str | None, more: str) -> list[str]:
    """The command that compiles a source."""
    known, usual = FLAGS[path.suffix]
    words = shlex.split(usual if flags is None else flags) + shlex.split(more)
    if flags is not None and path.suffix != ".rs" and "-c" not in words:
        words.append("-c")
    return [*shlex.split(compiler or known), *words, str(path), "-o", str(made)]


def compile_source(path: pathlib.Path, folder: pathlib.Path, compiler: str, flags: str | None, more: str) -> tuple[pathlib.Path, list[str]]:
    """The object of a source file, and the command that made it."""
    made = folder / f"{path.stem}.o"
    command = command_of(path, made, compiler, flags, more)
    if shutil.which(command[0]) is None:
        raise Refusal(f"{command[0]} is not there, which compiles {path}")
    ran = subprocess.run(command, capture_output=True, text=True)
    if ran.returncode:
        raise Refusal(f"{shlex.join(command)} failed:\n{ran.stderr.strip()}")
    return made, command
