"""The words of `tsoq-adopt`."""

import argparse
import os
import pathlib
import shlex
import subprocess
import sys
import tempfile

from .adopting import Adopted, Adoption, Options
from .compiling import FLAGS, compile_source
from .refusing import Refusal
from .trying import Different, try_text

TOP = pathlib.Path(__file__).resolve().parent.parent
REFUSED, DIFFERENT, FILE, USAGE = 2, 7, 6, 64
TRIES = 2000


class Parser(argparse.ArgumentParser):
    """Ends with the status that tsoq has for wrong words."""

    def error(self, message: str) -> "argparse.NoReturn":  # type: ignore[name-defined]
        self.print_usage(sys.stderr)
        print(f"tsoq-adopt: {message}", file=sys.stderr)
        sys.exit(USAGE)


def parser() -> Parser:
    made = Parser(
        prog="tsoq-adopt",
        usage="tsoq-adopt FILE --push SYMBOL --pop SYMBOL --out TEXT [OPTIONS] [-- WORDS OF TSOQ]",
        description="Reads the compiled push and pop of a ring queue, an x86-64 ELF object with debug information, and writes a program "
        "text for tsoq. A source file (.c, .cpp, .rs) is compiled first.",
        epilog="docs/ADOPT.md states each rule. Statuses: 0 a text was written, 2 the object is refused, 6 a file failed, 7 the text and "
        "the compiled code differ, 64 wrong words; behind --verify and --survey the status is that of tsoq.",
    )
    made.add_argument("file", metavar="FILE", help="an object file, or a source file that is compiled first")
    add_queue(made)
    add_compiler(made)
    add_text(made)
    add_after(made)
    return made


def add_queue(made: Parser) -> None:
    group = made.add_argument_group("the queue")
    group.add_argument("--push", default="push", metavar="SYMBOL", help="the function that pushes (default: push)")
    group.add_argument("--pop", default="pop", metavar="SYMBOL", help="the function that pops (default: pop)")
    group.add_argument(
        "--init", default="", metavar="SYMBOL", help="a function that fills the queue's memory first; it runs in the emulator"
    )
    group.add_argument(
        "--layout",
        action="append",
        default=[],
        metavar="FIELDS",
        help="fields of an object without debug information: " "OBJECT=NAME:OFFSET:SIZE*COUNT/STRIDE,..",
    )
    group.add_argument(
        "--done", type=int, choices=(0, 1), default=1, help="what a call that is done answers (default: 1); with 0, all else is refused"
    )


def add_compiler(made: Parser) -> None:
    group = made.add_argument_group("compiling a source file")
    group.add_argument("--compiler", default="", metavar="COMMAND", help="the compiler (default: cc, c++ or rustc)")
    group.add_argument("--cflags", metavar="FLAGS", help="the compiler's flags, in place of -O2 -g -c, or of those of rustc")
    group.add_argument("--add-cflags", default="", metavar="FLAGS", help="flags more")


def add_text(made: Parser) -> None:
    group = made.add_argument_group("the text")
    group.add_argument("--out", metavar="TEXT", help="the file to write (default: standard output)")
    group.add_argument(
        "--capacity", type=int, metavar="N", help="the queue's capacity (default: as many pushes as are done before one is refused)"
    )
    group.add_argument("--mode", choices=("strict", "weak"), default="strict", help="when a call may be refused (default: strict)")
    group.add_argument("--thread", action="append", metavar="CALLS", help="a thread of the client; several words make several threads")
    group.add_argument("--before", default="", metavar="CALLS", help="calls that run alone before the threads")
    group.add_argument("--bound", type=int, metavar="N", help="the bound of all jumps back")
    group.add_argument(
        "--bound-at", action="append", default=[], metavar="FILE:LINE=N", help="the bound of the jumps back of a source line"
    )


def add_after(made: Parser) -> None:
    group = made.add_argument_group("behind the text")
    group.add_argument(
        "--try",
        dest="tries",
        type=int,
        default=TRIES,
        metavar="N",
        help=f"calls that are held against the compiled code (default: {TRIES:,})",
    )
    group.add_argument("--no-try", action="store_true", help="tries nothing")
    group.add_argument("--verify", action="store_true", help="runs `tsoq verify` on the text, with the words behind --")
    group.add_argument("--survey", action="store_true", help="runs `tsoq survey` on the text, with the words behind --")
    group.add_argument("--quiet", action="store_true", help="lists nothing on standard error but refusals")


def bounds_of(words: list[str], made: Parser) -> dict[str, int]:
    """Bounds by source line."""
    found = {}
    for word in words:
        line, _, bound = word.rpartition("=")
        if ":" not in line or not bound.isdigit() or int(bound) > 15:
            made.error(f"--bound-at wants FILE:LINE=N with N from 0 to 15, not {word}")
        found[line] = int(bound)
    return found


def options_of(words: argparse.Namespace, made: Parser) -> Options:
    if words.bound is not None and not 0 <= words.bound <= 15:
        made.error("--bound wants a number from 0 to 15")
    if words.capacity is not None and not 1 <= words.capacity <= 16:
        made.error("--capacity wants a number from 1 to 16")
    options = Options(
        words.push, words.pop, words.init, words.done, words.bound, bounds_of(words.bound_at, made), words.capacity, words.mode
    )
    options.before, options.layout = words.before, words.layout
    if words.thread:
        options.threads = words.thread
    return options


def adopt(path: pathlib.Path, words: argparse.Namespace, options: Options) -> Adopted:
    """The text of an object, tried."""
    adoption = Adoption(path, options)
    try:
        adopted = adoption.adopt()
    except Refusal as refusal:
        raise Refusal(located(adoption, refusal)) from None
    if not words.no_try and words.tries:
        count, skipped = try_text(adopted, options, words.tries)
        more = f"; {skipped} more wait without end, or go outside of an array from a made-up state" if skipped else ""
        adopted.report.append(f"tried: {count - skipped} calls as compiled code and as text, with answers and memory alike{more}")
    return adopted


def located(adoption: Adoption, refusal: Refusal) -> str:
    """The reason with its source line and its address."""
    if refusal.address is None:
        return refusal.reason
    line = " ".join(adoption.debug.lines_of(refusal.address))
    instruction = adoption.instruction_at(refusal.address)
    place = " ".join(it for it in (line, f"{adoption.placed.offset_in_section(refusal.address):#x}", instruction) if it)
    return f"{place}\n  {refusal.reason}"


def check_text(text: str) -> None:
    """Asks tsoq whether it reads the text. One that it refuses is an error of this program."""
    parsed = subprocess.run([str(TOP / "tsoq"), "parse", "-", "--verbose"], input=text, capture_output=True, text=True)
    if parsed.returncode:
        raise Refusal(f"tsoq refuses the text that was made, which is an error of this program:\n{parsed.stderr or parsed.stdout}")


def write_text(text: str, out: str | None) -> None:
    if out is None:
        sys.stdout.write(text)
        return
    path = pathlib.Path(out)
    try:
        with tempfile.NamedTemporaryFile("w", dir=path.parent, delete=False) as file:
            file.write(text)
        os.chmod(file.name, 0o644)
        os.replace(file.name, path)
    except OSError as error:
        print(f"tsoq-adopt: cannot write {out}: {error.strerror}", file=sys.stderr)
        sys.exit(FILE)


def go_on(words: argparse.Namespace, rest: list[str]) -> None:
    """Hands the text to tsoq."""
    for name in ("verify", "survey"):
        if getattr(words, name):
            sys.stdout.flush()
            command = [str(TOP / "tsoq"), name, words.out, *rest]
            sys.exit(subprocess.run(command).returncode)


def run(words: argparse.Namespace, options: Options, folder: pathlib.Path) -> Adopted:
    path = pathlib.Path(words.file)
    if not path.is_file():
        print(f"tsoq-adopt: cannot read {path}", file=sys.stderr)
        sys.exit(FILE)
    if path.suffix in FLAGS:
        path, command = compile_source(path, folder, words.compiler, words.cflags, words.add_cflags)
        if not words.quiet:
            print(shlex.join(command), file=sys.stderr)
    return adopt(path, words, options)


def main(arguments: list[str] | None = None) -> None:
    """Reads the words, and does what they say."""
    given = sys.argv[1:] if arguments is None else arguments
    rest: list[str] = []
    if "--" in given:
        at = given.index("--")
        given, rest = given[:at], given[at + 1 :]
    made = parser()
    words = made.parse_args(given)
    if (words.verify or words.survey) and words.out is None:
        made.error("--verify and --survey want --out")
    options = options_of(words, made)
    try:
        with tempfile.TemporaryDirectory() as folder:
            adopted = run(words, options, pathlib.Path(folder))
        check_text(adopted.text)
    except Refusal as refusal:
        print(f"refused: {refusal.reason}", file=sys.stderr)
        sys.exit(REFUSED)
    except Different as different:
        print(f"the text and the compiled code differ, and nothing is written: {different}", file=sys.stderr)
        sys.exit(DIFFERENT)
    if not words.quiet:
        print("\n".join(adopted.report), file=sys.stderr)
    write_text(adopted.text, words.out)
    go_on(words, rest)
