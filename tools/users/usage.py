"""What the program says of itself: `--version`, and the rows and letters of `--help`."""

import pathlib
import re
import subprocess
from typing import NamedTuple


class Row(NamedTuple):
    """A row of the command table: its words, and what it asks for."""

    words: list[str]
    what: str


class Usage(NamedTuple):
    """The help text by its parts. `letters` has what stands behind a letter that names a file or a number."""

    title: str
    rows: list[Row]
    letters: dict[str, str]
    example: str


OPTIONS = [Row(["--help"], "how the program is called"), Row(["--version"], "the program's name and version")]


def is_name(word: str) -> bool:
    """Whether a word of a row stands for one that the user gives: at most two letters or digits."""
    return len(word) <= 2


def is_file(name: str) -> bool:
    """Whether a name stands for a file. Names of numbers have small letters."""
    return name[0].isupper()


def read_usage(text: str) -> Usage:
    """The parts of what `--help` prints. ValueError where a part isn't there."""
    table = re.search(r"^usage:.*?^$", text, re.M | re.S)
    named = re.search(r"^files:.*?^$", text, re.M | re.S)
    example = re.search(r"^example: (.*)$", text, re.M)
    if not (table and named and example):
        raise ValueError("the help text has no usage, no letters or no example")
    found = re.findall(r"^(?:usage:|      ) surf (\S.*?)(?:  +(\S.*))?$", table[0], re.M)
    rows = [Row(words.split(), what) for words, what in found if not words.startswith("--")]
    files = re.findall(r"^(?:files:|      ) ([A-Z])  +(\S.*)$", named[0], re.M)
    numbers = re.findall(r"(?:^numbers:|;) ([a-z]) ([^;\n]*)", named[0], re.M)
    title = text.split("\n")[0].split(": ", 1)[1]
    return Usage(title, rows, dict(files + numbers), example[1])


def names_of(usage: Usage) -> list[str]:
    """The names in the rows, files first, each kind in the order of the rows."""
    found = dict.fromkeys(word for row in usage.rows for word in row.words if is_name(word))
    return sorted(found, key=lambda name: not is_file(name))


def meaning_of(usage: Usage, name: str) -> str:
    """What the user gives for a name. W2 is a second W."""
    return usage.letters.get(name) or usage.letters.get(name[0]) or ("a file" if is_file(name) else "a number")


def said(program: pathlib.Path, word: str) -> str:
    return subprocess.run([program.resolve(), word], capture_output=True, text=True, check=True).stdout


def version_of(program: pathlib.Path) -> str:
    """The number that `--version` prints. ValueError where it prints something else."""
    found = re.fullmatch(r"surf (\d+\.\d+\.\d+)\n", said(program, "--version"))
    if not found:
        raise ValueError(f"{program.name} --version prints no version")
    return found[1]
