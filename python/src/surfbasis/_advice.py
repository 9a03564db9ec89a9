"""What the lines of refusals mean and what to do, as the page docs/refusals.md has it, which the package carries."""

from __future__ import annotations

import functools
import importlib.resources
import re
from typing import Dict, List, Match, NamedTuple, Pattern


class Advice(NamedTuple):
    """What a line means, and what to do; empty where the page says nothing."""

    meaning: str = ""
    advice: str = ""


class _Entry(NamedTuple):
    """What the page says of a form of lines, such as `border U V F`, with its letters."""

    form: Pattern[str]
    letters: List[str]
    told: Advice

    def of(self, line: str) -> "Advice | None":
        """What is said of this line, with its numbers in place of the letters."""
        found = self.form.fullmatch(line)
        if not found:
            return None
        values = dict(zip(self.letters, found.groups()))

        def value(letter: Match[str]) -> str:
            return values.get(letter[0], letter[0])

        return Advice(*(re.sub(r"\b[A-Z]\b", value, text) for text in self.told))


def advice_in(status: int, line: str) -> Advice:
    """What the page says of a line; the words before its colon, such as `surface`, aren't in the page's forms."""
    line = line.partition(": ")[2] or line
    told = (entry.of(line) for entry in _entries().get(status, ()))
    return next((advice for advice in told if advice), Advice())


@functools.lru_cache(maxsize=None)
def _entries() -> Dict[int, List[_Entry]]:
    try:
        page = importlib.resources.files(__package__).joinpath("refusals.md").read_text("utf-8")
    except FileNotFoundError:
        return {}
    return entries_of(page)


def entries_of(page: str) -> Dict[int, List[_Entry]]:
    """What a page says, by the statuses in its headings: in tables, or in sentences behind a form and a colon."""
    found: Dict[int, List[_Entry]] = {}
    for heading, section in re.findall(r"^#+ (Status [^\n]*)\n(.*?)(?=^#+ |\Z)", page, re.M | re.S):
        prose = re.sub(r"^```.*?^```", "", section, flags=re.M | re.S)
        entries = [*_rows(prose), *_sentences(prose)]
        for status in re.findall(r"\d+", heading.partition(":")[0]):
            found.setdefault(int(status), []).extend(entries)
    return found


def _rows(prose: str) -> List[_Entry]:
    """The rows of tables: forms, what they mean, what to do."""
    rows = ([cell.strip() for cell in row.strip("|").split("|")] for row in re.findall(r"^\| *`.*\|$", prose, re.M))
    return [_entry(form, (row[1:] + [""])[:2]) for row in rows for form in re.findall(r"`([^`]+)`", row[0])]


def _sentences(prose: str) -> List[_Entry]:
    """Sentences of paragraphs behind forms and a colon; and a paragraph without forms, for every line."""
    found: List[_Entry] = []
    for paragraph in re.split(r"\n\s*\n", prose):
        text = " ".join(paragraph.split())
        if not text or text.startswith("|"):
            continue
        pieces = re.split(r"(?:^|(?<=\. ))((?:`[^`]+`,? ?(?:and )?)+): ", text)
        for forms, told in zip(pieces[1::2], pieces[2::2]):
            found += [_entry(form, ["", _sentence(told)]) for form in re.findall(r"`([^`]+)`", forms)]
        if len(pieces) == 1:
            found.append(_Entry(re.compile(".*"), [], Advice("", _sentence(text))))
    return found


def _entry(form: str, told: List[str]) -> _Entry:
    words = form.split()
    letters = [word for word in words if re.fullmatch("[A-Z]", word)]
    pattern = " ".join(r"(\d+)" if word in letters else ".*" if word == ".." else re.escape(word) for word in words)
    return _Entry(re.compile(pattern), letters, Advice(*map(_sentence, told)))


def _sentence(text: str) -> str:
    return text.strip().rstrip(".")
