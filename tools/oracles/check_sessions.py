#!/usr/bin/env python3
"""Runs the sessions in README.md and docs/, and compares what is printed with what is shown.

    check_sessions.py [PROGRAM]      the built program, crates/surf/out/surf where none is named

Each block that is fenced by ``` says what it is by the word behind the fence:

    console TOOL ..   a session: a line that begins with `$ ` is a command for a shell at the top of the repository,
                      with `surf` on the path, and the lines up to the next such line are what it prints, on either
                      stream. A line `..` stands for any number of lines, and a line that begins with `> ` right
                      behind a command goes on with it. Where a named tool isn't here, the session is passed over
    rust FILE, c FILE lines that stand so in that file of the repository
    sh                commands that aren't run here, such as those of the toolchain
    text, and others  no commands

A block with a command that says neither `console` nor `sh` is an error. A link to a file or a heading that isn't there
is another.
All sessions of one document run in one folder, with copies of the meshes and tools of the repository.
"""

import os
import pathlib
import re
import shutil
import subprocess
import sys
import tempfile

from tools import TOP


class Block:
    """A fenced block: the words behind the fence, the number of its line, and its lines."""

    def __init__(self, words, number, lines):
        self.words, self.number, self.lines = words, number, lines

    def is_session(self):
        return self.words[:1] == ["console"]

    def missing_tools(self):
        return [tool for tool in self.words[1:] if not shutil.which(tool)]

    def steps(self):
        """Each command with the lines that it prints."""
        steps = []
        for line in self.lines:
            if line.startswith("$ "):
                steps.append((line[2:], []))
            elif line.startswith("> ") and steps and not steps[-1][1]:
                steps[-1] = (f"{steps[-1][0]}\n{line[2:]}", [])
            elif steps:
                steps[-1][1].append(line)
        return steps

    def fault(self):
        has_command = any(line.startswith("$ ") for line in self.lines)
        if self.is_session():
            return None if self.lines and self.lines[0].startswith("$ ") else "a session begins with a command"
        if not self.words:
            return "the fence doesn't say what the block is"
        if self.words[0] in ("rust", "c") and "\n".join(self.lines) not in (TOP / self.words[-1]).read_text():
            return f"these lines don't stand in {self.words[-1]}"
        return "commands stand in a block that isn't a session" if has_command else None


def blocks(text):
    words, start, lines = None, 0, []
    for number, line in enumerate(text.splitlines(), 1):
        if not line.startswith("```"):
            lines.append(line)
        elif words is None:
            words, start, lines = line[3:].split(), number, []
        else:
            yield Block(words, start, lines)
            words = None


def headings(text):
    """The headings of a page, as they stand in an address."""
    prose = re.sub(r"^```.*?^```", "", text, flags=re.M | re.S)
    found = re.findall(r"^#+ (.*)$", prose, re.M)
    return {re.sub(r"[^\w -]", "", heading).lower().replace(" ", "-") for heading in found}


def leads_nowhere(link, path):
    name, _, heading = link.partition("#")
    page = path.parent / name if name else path
    return not page.exists() or (heading and heading not in headings(page.read_text()))


def dead_links(path, text):
    """The links to files of the repository, or to headings of pages, that aren't there."""
    found = re.findall(r"\]\(([^):]+)\)", text) + re.findall(r"^\[[^\]]+\]: (\S+)", text, re.M)
    return [link for link in found if not link.startswith("http") and leads_nowhere(link, path)]


def matches(shown, printed):
    """Whether the printed lines are those that are shown, where `..` stands for any number of them."""
    if ".." not in shown:
        return shown == printed
    at = shown.index("..")
    if printed[:at] != shown[:at]:
        return False
    rest = shown[at + 1 :]
    return any(matches(rest, printed[k:]) for k in range(at, len(printed) + 1))


def run(session, room, places, name):
    wrong = 0
    for command, shown in session.steps():
        ran = subprocess.run(["bash", "-c", command], cwd=room, env={**os.environ, "PATH": places},
                             capture_output=True, text=True)
        printed = (ran.stdout + ran.stderr).splitlines()
        if not matches(shown, printed):
            wrong += 1
            print(f"{name}:{session.number}: $ {command}\n  shown:   {shown[:12]}\n  printed: {printed[:12]}")
    return wrong


class Counts:
    def __init__(self):
        self.commands = self.wrong = self.passed_over = self.faults = 0


def check(path, program, counts):
    text, name = path.read_text(), path.relative_to(TOP)
    for link in dead_links(path, text):
        counts.faults += 1
        print(f"{name}: the link {link} leads nowhere")
    with tempfile.TemporaryDirectory() as room:
        for folder in ("meshes", "tools", "docs", "web"):
            shutil.copytree(TOP / folder, f"{room}/{folder}", ignore=shutil.ignore_patterns("out"))
        places = f"{program.parent}{os.pathsep}{os.environ['PATH']}" if program else ""
        for block in blocks(text):
            if block.fault():
                counts.faults += 1
                print(f"{name}:{block.number}: {block.fault()}")
            elif block.is_session():
                missing = block.missing_tools()
                if missing or not program:
                    counts.passed_over += len(block.steps())
                    if missing:
                        print(f"{name}:{block.number}: not run, since {' and '.join(missing)} isn't here")
                else:
                    counts.commands += len(block.steps())
                    counts.wrong += run(block, room, places, name)


def documents():
    return [*sorted(TOP.glob("*.md")), *sorted((TOP / "docs").rglob("*.md")), *sorted((TOP / "meshes").glob("*.md"))]


def main():
    program = pathlib.Path(sys.argv[1] if len(sys.argv) > 1 else TOP / "crates/surf/out/surf").resolve()
    if not program.is_file():
        print(f"{program.name} isn't built: the sessions in the documents are read, and not run")
        program = None
    counts = Counts()
    for path in documents():
        check(path, program, counts)
    print(f"{counts.commands - counts.wrong} commands of sessions print what is shown, {counts.wrong} don't, "
          f"{counts.passed_over} weren't run; {counts.faults} faults in blocks and links")
    return 1 if counts.wrong or counts.faults else 0


if __name__ == "__main__":
    sys.exit(main())
