"""The man page and the completions of shells, made of the words of the parser.

  python3 -m adopt.pages           compares adopt/tsoq-adopt.1 and adopt/completions/ with the parser
  python3 -m adopt.pages --write   writes them anew
"""

import argparse
import pathlib
import sys
from dataclasses import dataclass

from .cli import parser

HERE = pathlib.Path(__file__).resolve().parent
FILES = ("FILE", "TEXT")


@dataclass(frozen=True)
class Word:
    """An option: its name, what stands for its value, the values it can have, and what it is for."""

    name: str
    value: str
    choices: tuple[str, ...]
    help: str


def words_of(made: argparse.ArgumentParser) -> list[Word]:
    """The options of the parser."""
    found = []
    for action in made._actions:
        if action.option_strings:
            choices = tuple(str(it) for it in action.choices or ())
            value = str(action.metavar or "|".join(choices)) if action.nargs != 0 else ""
            found.append(Word(action.option_strings[-1], value, choices, action.help or ""))
    return found


def escaped(text: str) -> str:
    return text.replace("\\", "\\e").replace("-", "\\-")


def manual(made: argparse.ArgumentParser) -> str:
    """The man page."""
    lines = [
        '.TH TSOQ\\-ADOPT 1 "" "tsoq" "User Commands"',
        ".SH NAME",
        "tsoq\\-adopt \\- writes the program text of a compiled ring queue",
    ]
    lines += [".SH SYNOPSIS", ".B tsoq\\-adopt", "\\fIFILE\\fR [\\fIoptions\\fR] [\\-\\- \\fIwords of tsoq\\fR]", ".SH DESCRIPTION"]
    lines += [escaped(made.description or ""), ".SH OPTIONS"]
    for word in words_of(made):
        value = f" \\fI{escaped(word.value)}\\fR" if word.value else ""
        lines += [".TP", f"\\fB{escaped(word.name)}\\fR{value}", escaped(word.help)]
    return "\n".join([*lines, ".SH SEE ALSO", escaped(made.epilog or "")]) + "\n"


def bash(words: list[Word]) -> str:
    """The completion of bash."""
    lines = [
        "# Completions of bash for tsoq-adopt.",
        "_tsoq_adopt() {",
        "  local word=${COMP_WORDS[COMP_CWORD]} before=${COMP_WORDS[COMP_CWORD-1]}",
    ]
    lines.append("  case $before in")
    for word in words:
        if word.choices:
            lines.append(f'    {word.name}) mapfile -t COMPREPLY < <(compgen -W "{" ".join(word.choices)}" -- "$word"); return ;;')
        elif word.value and word.value not in FILES:
            lines.append(f"    {word.name}) COMPREPLY=(); return ;;")
    lines += ["  esac", "  if [[ $word == -* ]]; then"]
    lines.append(f'    mapfile -t COMPREPLY < <(compgen -W "{" ".join(it.name for it in words)}" -- "$word")')
    lines += [
        "  else",
        '    mapfile -t COMPREPLY < <(compgen -f -- "$word")',
        "  fi",
        "}",
        "complete -o filenames -F _tsoq_adopt tsoq-adopt",
    ]
    return "\n".join(lines) + "\n"


def quoted(text: str) -> str:
    return text.replace("'", "'\\''")


def zsh(words: list[Word]) -> str:
    """The completion of zsh."""
    lines = ["#compdef tsoq-adopt", "_arguments \\"]
    for word in words:
        action = f":{word.value.lower()}:({' '.join(word.choices)})" if word.choices else f":{word.value.lower()}:" if word.value else ""
        action += "_files" if word.value in FILES else ""
        told = quoted(word.help).replace("[", "(").replace("]", ")").replace(":", "\\:")
        lines.append(f"  '*{word.name}[{told}]{action}' \\")
    return "\n".join([*lines, "  '1:file:_files'"]) + "\n"


def fish(words: list[Word]) -> str:
    """The completion of fish."""
    lines = ["# Completions of fish for tsoq-adopt."]
    for word in words:
        more = f" -x -a '{' '.join(word.choices)}'" if word.choices else " -r" if word.value in FILES else " -x" if word.value else ""
        told = word.help.replace("\\", "\\\\").replace("'", "\\'")
        lines.append(f"complete -c tsoq-adopt -l {word.name[2:]}{more} -d '{told}'")
    return "\n".join(lines) + "\n"


def pages() -> dict[pathlib.Path, str]:
    """All files with their text."""
    made = parser()
    words = words_of(made)
    folder = HERE / "completions"
    shells = {folder / "tsoq-adopt.bash": bash(words), folder / "_tsoq-adopt": zsh(words), folder / "tsoq-adopt.fish": fish(words)}
    return {HERE / "tsoq-adopt.1": manual(made)} | shells


def differing() -> list[pathlib.Path]:
    """The files that are not what the parser says."""
    return [path for path, text in pages().items() if not path.is_file() or path.read_text() != text]


def main(arguments: list[str]) -> int:
    if arguments == ["--write"]:
        for path, text in pages().items():
            path.parent.mkdir(exist_ok=True)
            path.write_text(text)
        return 0
    for path in differing():
        print(f"{path} is not what the parser says: `python3 -m adopt.pages --write` brings it up to date")
    return int(bool(differing()))


if __name__ == "__main__":
    sys.exit(main(sys.argv[1:]))
