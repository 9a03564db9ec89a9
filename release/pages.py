#!/usr/bin/env python3
"""Makes the manual page and the completions of bash, zsh and fish.

    pages.py [--program PATH] [--name NAME] [--date YYYY-MM-DD] FOLDER
    pages.py [--program PATH] --check

All is made from what the program prints for `--help` and `--version` and from docs/formats.md, so nothing is written
twice. The program is crates/surf/out/surf where none is named. With --check nothing is kept, and it is tried

- that the table of commands in docs/formats.md has each row of `--help`;
- that the page and each completion have each row, and the page each word of docs/formats.md, in order;
- that `mandoc -T lint` and `man --warnings` find nothing, and the shells no fault. A tool that isn't here is passed
  over with a word.
"""

import argparse
import datetime
import html
import pathlib
import re
import shutil
import subprocess
import sys
import tempfile

from release import completions, manual
from tools import TOP
from tools.users.usage import Usage, read_usage, said, version_of

FORMATS = TOP / "docs" / "formats.md"


def pages(program: pathlib.Path, name: str, date: str) -> dict[str, str]:
    """The texts by the names of their files."""
    usage = read_usage(said(program, "--help"))
    return {
        f"{name}.1": manual.manual(usage, FORMATS.read_text(), name, version_of(program), date),
        f"{name}.bash": completions.bash(usage, name),
        f"_{name}": completions.zsh(usage, name),
        f"{name}.fish": completions.fish(usage, name),
    }


def write_pages(folder: pathlib.Path, texts: dict[str, str]) -> None:
    folder.mkdir(parents=True, exist_ok=True)
    for name, text in texts.items():
        (folder / name).write_text(text)


# ---- the check


def words_of_markdown(text: str) -> list[str]:
    """The words of a document that the page has to have, in order, without marks."""
    body = [block for part in re.split(r"^## .*$", text, flags=re.M) for block in manual.blocks_of(part)]
    rows = [row for block in body for row in (block.split("\n")[2:] if block.startswith("|") else block.split("\n"))]
    text = re.sub(r"\[([^]]*)\]\([^)]*\)", r"\1", " ".join(rows))
    return re.findall(r"\w+", text.replace("*", "").replace("`", ""))


def words_of_page(text: str) -> list[str]:
    """The words that a reader of a page sees, as mandoc shows them, or else as they stand in the source."""
    if shutil.which("mandoc"):
        shown = subprocess.run(["mandoc", "-T", "html", "-O", "fragment"], input=text, capture_output=True, text=True)
        return re.findall(r"\w+", html.unescape(re.sub(r"<[^>]*>", "", shown.stdout)))
    signs = {sign: text for text, sign in manual.SIGNS.items()} | {"\\-": "-", "\\[aq]": "'", "\\&": ""}
    shown = re.sub(r"\\f[BIR]|^\.\w+( \d+\.)?", r"\1", text, flags=re.M)
    for sign, it in signs.items():
        shown = shown.replace(sign, it)
    return re.findall(r"\w+", shown)


def missing_words(due: list[str], words: list[str]) -> list[str]:
    """The words from the first on that isn't found in order behind those before it."""
    rest = iter(words)
    for at, word in enumerate(due):
        if word not in rest:
            return due[at:]
    return []


def row_faults(usage: Usage, texts: dict[str, str]) -> list[str]:
    """The rows that a text or the table of docs/formats.md doesn't have."""
    table = re.search(r"^## Commands\n(.*?)^## ", FORMATS.read_text(), re.M | re.S)[1]
    told = {words for cell in re.findall(r"^\| (.*?) \|", table, re.M) for words in re.findall(r"`([^`]*)`", cell)}
    faults = []
    for row in usage.rows:
        words = " ".join(row.words)
        if words not in told:
            faults.append(f"docs/formats.md has no row {words}")
        for name, text in texts.items():
            if words not in re.sub(r"\\f[BIR]", "", text).replace("\\-", "-"):
                faults.append(f"{name} has no row {words}")
    return faults


def tool_faults(command: list[str]) -> list[str]:
    """What a tool says, or nothing where it isn't here."""
    if not shutil.which(command[0]):
        print(f"{command[0]} isn't here: {pathlib.Path(command[-1]).name} is not tried by it")
        return []
    ran = subprocess.run(command, stdout=subprocess.PIPE, stderr=subprocess.PIPE, text=True, stdin=subprocess.DEVNULL)
    said = ran.stderr + (ran.stdout if command[0] == "mandoc" else "")
    return [f"{' '.join(command[:2])}: {said.strip()}"] if said.strip() or ran.returncode else []


def faults_of(program: pathlib.Path, name: str, date: str) -> list[str]:
    texts, usage = pages(program, name, date), read_usage(said(program, "--help"))
    faults = row_faults(usage, texts)
    lost = missing_words(words_of_markdown(FORMATS.read_text()), words_of_page(texts[f"{name}.1"]))
    if lost:
        faults.append(f"{name}.1 lacks words of docs/formats.md: {' '.join(lost[:12])} ..")
    with tempfile.TemporaryDirectory() as room:
        folder = pathlib.Path(room)
        write_pages(folder, texts)
        page = str(folder / f"{name}.1")
        for command in (["mandoc", "-T", "lint", page], ["man", "--warnings", "-E", "UTF-8", "-l", page]):
            faults += tool_faults(command)
        for shell, file in (("bash", f"{name}.bash"), ("zsh", f"_{name}"), ("fish", f"{name}.fish")):
            faults += tool_faults([shell, "-n", str(folder / file)])
    return faults


def main() -> int:
    args = argparse.ArgumentParser(description=__doc__, formatter_class=argparse.RawDescriptionHelpFormatter)
    args.add_argument("--program", type=pathlib.Path, default=TOP / "crates/surf/out/surf")
    args.add_argument("--name", default="surf")
    args.add_argument("--date", default=datetime.date.today().isoformat())
    args.add_argument("--check", action="store_true")
    args.add_argument("folder", type=pathlib.Path, nargs="?")
    given = args.parse_args()
    if not given.check:
        if not given.folder:
            args.error("which folder?")
        write_pages(given.folder, pages(given.program, given.name, given.date))
        return 0
    if not given.program.exists():
        print("there is no program: the manual page and the completions can't be tried")
        return 1
    faults = faults_of(given.program, given.name, given.date)
    print("\n".join(faults or ["the manual page and the completions have all of --help and docs/formats.md"]))
    return 1 if faults else 0


if __name__ == "__main__":
    sys.exit(main())
