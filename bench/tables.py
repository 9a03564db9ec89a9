"""Measured tables: printed in Markdown, row by row as they come, and kept as texts with tabs in `bench/measured`."""
import csv
import subprocess
import sys
from collections.abc import Iterable, Sequence
from pathlib import Path

from tools import TOP

MEASURED = Path(__file__).resolve().parent / "measured"


def line(cells: Iterable[str]) -> str:
    """A line of a table in Markdown."""
    return f"| {' | '.join(cells)} |"


def print_head(head: Sequence[str]) -> None:
    print(f"\n{line(head)}\n{'|---' * len(head)}|", flush=True)


def tell(name: str, head: Sequence[str], rows: Iterable[Sequence[str]], is_kept: bool) -> None:
    """Prints a table. It is kept by its name where that is asked, unless it has no row: then what was kept stays."""
    print_head(head)
    told = []
    for row in rows:
        print(line(row), flush=True)
        told.append(row)
    if is_kept and told:
        keep(name, head, told)


def keep(name: str, head: Sequence[str], rows: Iterable[Sequence[str]]) -> None:
    MEASURED.mkdir(exist_ok=True)
    with (MEASURED / f"{name}.tsv").open("w", newline="") as out:
        csv.writer(out, delimiter="\t", lineterminator="\n").writerows([head, *rows])


def kept(name: str) -> tuple[list[str], list[list[str]]]:
    """The head and the rows of the kept table of a name, which are empty where none was kept."""
    if not (MEASURED / f"{name}.tsv").exists():
        return [], []
    with (MEASURED / f"{name}.tsv").open(newline="") as text:
        head, *rows = csv.reader(text, delimiter="\t")
    return head, rows


def show_on_page() -> None:
    """Writes the kept tables into docs/speed.md, and the pictures: see `bench/page.py`."""
    subprocess.run([sys.executable, "-m", "bench.page"], cwd=TOP, check=False)
