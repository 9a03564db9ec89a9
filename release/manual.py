"""The manual page, from what `--help` prints and from docs/formats.md."""

import re
import textwrap

from tools.users.usage import Usage, is_name

SIGNS = {"\\": "\\e", "−": "\\[mi]", "·": "\\[pc]", "χ": "\\[u03C7]", "^": "\\[ha]", "~": "\\[ti]", "`": "\\[ga]"}
TITLES = {"Statuses": "EXIT STATUS", "Lines on refusals": "DIAGNOSTICS"}
# Of no use to whoever has the program alone: it names the sources of the definitions.
LEFT_OUT = "The definitions behind this page"
SEE_ALSO = ("With the program come a guide (`guide.md`), what each word of an answer means (`definitions.md`) and "
            "what is proved (`proved.md`).")


def plain(text: str) -> str:
    return "".join(SIGNS.get(sign, sign) for sign in text)


def literal(text: str) -> str:
    """Text as it is typed: quotes and hyphens stay as they are."""
    return plain(text).replace("-", "\\-").replace("'", "\\[aq]")


def roff(text: str) -> str:
    """A line of Markdown as roff: code and bold in bold, what is stressed in italics, links by their text."""
    text = re.sub(r"\[([^]]*)\]\([^)]*\)", r"\1", text)
    parts = re.split(r"`([^`]*)`", text)
    for at, part in enumerate(parts):
        if at % 2:
            parts[at] = f"\\fB{literal(part)}\\fR"
        else:
            part = re.sub(r"\*\*([^*]*)\*\*", r"\\fB\1\\fR", plain(part))
            parts[at] = re.sub(r"\*([^*]+)\*", r"\\fI\1\\fR", part)
    return "".join(parts)


def sentences(text: str) -> str:
    """Each sentence on lines of its own, as roff wants it, none of which begins as a request does."""
    lines = (roff(line) for line in re.sub(r"(?<=[.:;]) (?=[A-Z`*])", "\n", text).split("\n"))
    wrapped = (textwrap.wrap(line, 79, break_long_words=False, break_on_hyphens=False) for line in lines)
    return "\n".join(re.sub(r"^([.'])", r"\\&\1", line) for part in wrapped for line in part)


def table_rows(block: str) -> list[list[str]]:
    """The cells of a table of Markdown, without its head."""
    return [[cell.strip() for cell in row.strip("|").split("|")] for row in block.split("\n")[2:]]


def item(head: str, text: str) -> str:
    return f".TP\n{head}\n{sentences(text)}"


MARK = r"(?:\d+\.|-) "


def list_items(block: str) -> list[tuple[str, str]]:
    """The items of a list of Markdown, which may be wrapped: the number or a bullet, and the text in one line."""
    items = (" ".join(each.split()).split(" ", 1) for each in re.split(rf"\n(?={MARK})", block))
    return [("\\(bu" if mark == "-" else mark, text) for mark, text in items]


def block_as_roff(block: str) -> str:
    """A paragraph, a table or a list."""
    if block.startswith("|"):
        return "\n".join(item(roff(head), "; ".join(cells)) for head, *cells in table_rows(block))
    if re.match(MARK, block):
        return "\n".join(f".IP {mark} 4\n{sentences(text)}" for mark, text in list_items(block))
    return ".PP\n" + sentences(" ".join(block.split("\n")))


def blocks_of(body: str) -> list[str]:
    found = [block.strip() for block in body.strip().split("\n\n")]
    return [block for block in found if block and not block.startswith(("# ", LEFT_OUT))]


def synopsis(usage: Usage, name: str) -> list[str]:
    rows = []
    for row in usage.rows:
        marked = (f"\\fI{literal(word)}\\fR" if is_name(word) else f"\\fB{literal(word)}\\fR" for word in row.words)
        rows.append(f"\\fB{name}\\fR " + " ".join(marked))
    return [".nf", *rows, f"\\fB{name}\\fR \\fB\\-\\-help\\fR | \\fB\\-\\-version\\fR", ".fi"]


def description(usage: Usage, front: str) -> list[str]:
    """What the letters stand for, and how files are read."""
    lines = [sentences("Every answer is proved, and every refusal but that of want of memory, against definitions that "
                       "come "
                       "with the program.")]
    lines += [item(f"\\fI{letter}\\fR", what) for letter, what in usage.letters.items()]
    return lines + [block_as_roff(block) for block in blocks_of(front)]


def manual(usage: Usage, formats: str, name: str, version: str, date: str) -> str:
    """The page of section 1 for a command of this name."""
    front, *parts = re.split(r"^## (.*)$", formats, flags=re.M)
    lines = [f'.TH {name.upper()} 1 {date} "surf {version}" "User Commands"']
    lines += [".SH NAME", f"{name} \\- {roff(usage.title)}", ".SH SYNOPSIS", *synopsis(usage, name)]
    lines += [".SH DESCRIPTION", *description(usage, front)]
    for title, body in zip(parts[::2], parts[1::2]):
        lines.append(f'.SH "{plain(TITLES.get(title, title.upper()))}"')
        lines += [block_as_roff(block) for block in blocks_of(body)]
    example = re.sub(r"\bsurf ", f"{name} ", usage.example)
    lines += [".SH EXAMPLES", ".nf", *(literal(line) for line in example.split("; ")), ".fi"]
    lines += [".SH SEE ALSO", sentences(SEE_ALSO)]
    # The first paragraph of a section has no request of its own.
    return re.sub(r"(?m)^(\.SH .*\n)\.PP\n", r"\1", "\n".join(lines)) + "\n"
