"""Tries wrong bodies: the prover has to refuse the functions that an edit changes. For .ci/rt and .ci/mutants.

An edit changes a line or two, so the functions around them are checked alone (`rattle check --only`), with the edited text and over the
libraries that were proved before. A check of the whole crate would prove all its other functions once more. An edit that changes a line
outside of functions is tried as the kit's `rt` does it, over the whole crate.
"""

import importlib.machinery
import importlib.util
import os
import pathlib
import re
import shutil
import sys

REFUSED, AT_LIMIT, BAD, UNSURE, MISSED = "refused", "limit", "bad", "unsure", "missed"

FUNCTION = re.compile(r"^( *)(?:pub(?:\([a-z]+\))? )?(?:final )?(?:unsafe )?fn (\w+)")
BLOCK = re.compile(r"^impl(?:<.*?>)? (?:(?P<trait>[\w:]+)(?:<.*>)? for )?(?:&(?:'\w+ )?(?:mut )?)?(?P<type>[\w:]+)")


def kit():
    """The kit's `rt`, as a module."""
    if "rt" in sys.modules:
        return sys.modules["rt"]
    path = os.path.realpath(shutil.which("rt"))
    sys.path.insert(0, os.path.dirname(path))
    loader = importlib.machinery.SourceFileLoader("rt", path)
    made = importlib.util.module_from_spec(importlib.util.spec_from_loader("rt", loader))
    sys.modules["rt"] = made
    loader.exec_module(made)
    return made


def module_of(path):
    """The module of a file of src/, as `--only` names it."""
    parts = pathlib.PurePosixPath(path).with_suffix("").parts[1:]
    return [] if parts in (("lib",), ("main",)) else list(parts)


def function_at(lines, at):
    """The function that line `at` stands in, with its impl block's name, if it stands in one."""
    name, margin, start = None, 0, 0
    for k in range(at, -1, -1):
        found = FUNCTION.match(lines[k])
        if found:
            name, margin, start = found[2], len(found[1]), k
            break
    if name is None or any(re.match(r"\}", lines[k]) and margin == 0 or lines[k] == " " * margin + "}" for k in range(start, at)):
        return None
    if margin == 0:
        return [name]
    for k in range(start, -1, -1):
        if lines[k].startswith("}"):
            return None
        found = BLOCK.match(lines[k])
        if found:
            of_trait = (found["trait"] or "").rpartition("::")[2]
            return [found["type"].rpartition("::")[2] + of_trait, name]
        if re.match(r"(pub )?trait \w+", lines[k]):
            return None
    return None


def functions_of(crate, edit):
    """The functions that an edit changes, as `--only` names them; none where it changes another line as well."""
    path, functions = "", []
    for line in pathlib.Path(edit).read_text(encoding="utf-8").split("\n"):
        if line.startswith("file: "):
            path = line[6:].strip()
        elif line.startswith("old: "):
            text = pathlib.Path(crate.folder, path).read_text(encoding="utf-8")
            place = text.find(line[5:])
            found = path.startswith("src/") and place >= 0 and function_at(text.split("\n"), text[:place].count("\n"))
            if not found:
                return []
            name = "::".join(module_of(path) + found)
            functions += [name] * (name not in functions)
    return functions


def told_of(ran, rt, texts, label):
    """What the check of one function with an edit comes to, and what is said."""
    lines = ran.stdout.rstrip("\n").split("\n")
    last = re.fullmatch(r"only=(\d+) proved=(\d+)", lines[-1])
    if ran.returncode == 0 and last and last[1] == last[2] != "0":
        return MISSED, f"{label}: NOT REFUSED: what it changes is still proved"
    bad = next((it for it in lines if rt.unread(it, texts)), "")
    if ran.returncode != 1 or not last or bad:
        return None
    errors = [it for it in lines if re.match(r"(note: )?\S+:\d+:\d+:", it)]
    errors = [it for it in errors if ": error" in it or it.startswith("note: ")]
    names = r"(note: )?(\./)?proofs/.*(has no field|is not in scope|has no `|was not admitted)"
    first = next((it for it in errors if not re.match(names, it)), "")
    if not errors:
        return None
    if not first:
        return REFUSED, f"{label}: refused, as it must be (only because a proof file names what the edit took away): {errors[0][:160]}"
    return REFUSED, f"{label}: refused, as it must be: {first[:160]}"


def tried(rt, crate, edit):
    """Tries an edit: what it comes to, and what is said. None where only the whole crate can tell."""
    label = f"must-fail {crate.name}/{os.path.basename(edit)}"
    texts, why = rt.read_edit(edit, crate.folder)
    if why:
        return BAD, f"{label}: BAD EDIT: {why}"
    missed = None
    for function in functions_of(crate, edit):
        told = told_of(rt.checked(crate, texts, ["--jobs", "1", "--only", function], None), rt, texts, label)
        if told and told[0] == REFUSED:
            return told
        missed = told or missed
    # (what an edit changes may be proved, and who calls it not)
    return missed if missed and missed[0] != MISSED else None
