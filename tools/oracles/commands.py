"""The rows of the command table, read from the text that `--help` prints. The tools that try each command take them
from here, so a new command is tried as soon as its row is there."""

import re
import subprocess

from tools import TOP
from tools.users.usage import read_usage

# What stands in a row for a number that the user gives.
NUMBERS = {"x": "0", "k": "3", "g": "2", "a": "4", "b": "5", "s": "6"}


def help_text() -> str:
    """What `--help` prints, from the source, or in a release, which has no source, from its program."""
    source = TOP / "crates/surf_words/src/words.rt"
    if not source.is_file():
        return subprocess.run([TOP / "bin/surf", "--help"], capture_output=True, text=True, check=True).stdout
    return re.search(r'pub const HELP: &str = "(.*?)";', source.read_text(encoding="utf-8"), re.DOTALL)[1]


def rows() -> list[list[str]]:
    """The words of each row but those of `--help` and `--version`, in the order of the help text."""
    return [row.words for row in read_usage(help_text()).rows]


def with_numbers(words: list[str]) -> list[str]:
    """A row's words with a number for each letter of one."""
    return [NUMBERS.get(word, word) for word in words]


def rows_on_meshes() -> list[list[str]]:
    """The rows that read a mesh `M`, with numbers. The other letters in them stand for files: `L`, `W`, `W2`, `C`,
    `P`."""
    return [with_numbers(words) for words in rows() if "M" in words]


def rows_without_files() -> list[list[str]]:
    """The rows that name no file, with numbers."""
    return [with_numbers(words) for words in rows() if "M" not in words]
