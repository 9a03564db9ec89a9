#!/usr/bin/env python3
"""Runs the repository's checks beside the gate, as many at once as there are processors.

    python3 tools checks [--jobs N]     all of them; --jobs 1 runs one after the other
    python3 tools checks --bad-gate ..  after a gate that failed: those that build over what it left are not run
    python3 tools checks --list         the table

One alone is run by its name in the table, at the top of the repository: `python3 -m web.check`.

Each check's output is kept whole, and printed in the order of the table behind a line that names the check. The status
is the first bad one in that order; of a check that a signal ended it is, as in a shell, 128 and the signal's number.
"""

import argparse
import concurrent.futures
import os
import pathlib
import shlex
import subprocess
import sys
import tempfile
import time
from collections.abc import Callable, Iterator
from typing import NamedTuple

from tools import TOP

# What checks don't run beside: any other, or one of their own group.
ALONE, MEMORY = "any", "memory"


class Check(NamedTuple):
    """A module of the repository with its words, what it doesn't run beside, and whether it builds over what a good
    gate left."""

    command: str
    apart: str = ""
    over_gate: bool = False


class Ended(NamedTuple):
    """A check that ended: its status as a shell has it, all that it printed, and the seconds that it took."""

    check: Check
    status: int
    output: str
    seconds: float


# All checks. Each writes into a temporary folder of its own, but for the first: it makes the library for C, which
# others call. Those of the group MEMORY may take a gigabyte, or start many processes: one of them runs at a time.
CHECKS = [
    Check("release.libraries", ALONE, over_gate=True),
    Check("tools.oracles.run_cases"),
    Check("tools.oracles.check_bases"),
    Check("tools.oracles.check_walks"),
    Check("tools.oracles.check_certificates"),
    Check("tools.oracles.check_borders"),
    Check("tools.oracles.check_handles"),
    Check("tools.oracles.hostile --only great", MEMORY),
    Check("tools.oracles.hostile --only diag"),
    Check("tools.oracles.check_sessions"),
    Check("tools.oracles.misuses", MEMORY),
    Check("tools.oracles.check_c"),
    Check("tools.oracles.check_python"),
    Check("web.told --check"),
    Check("web.check", MEMORY),
    Check("blender.check", MEMORY),
    Check("elsewhere.check", MEMORY, over_gate=True),
    Check("tools.users.test_tools"),
    Check("tools.users.test_meshfiles"),
    Check("tools.users.test_viewfiles"),
    Check("tools.house.test_reach"),
    Check("tools.house.test_checks"),
    Check("tools.house.test_contracts"),
    Check("tools.house.test_shorten"),
    Check("bench.test_bench"),
    Check("elsewhere.test_elsewhere"),
    Check("tools.house.wrong_bodies --check"),
    Check("tools.house.crate_graph --check"),
    Check("tools.house.check_style"),
    Check("tools.house.check_documents"),
    Check("tools.house.check_definitions"),
    Check("tools.house.laws --check"),
    Check("tools.house.reach --unreached"),
    Check("tools.house.reach --check"),
    Check("release.proof"),
    Check("release.axioms --check"),
    Check("release.test_release"),
    Check("release.versions"),
    Check("release.pages --check"),
]


def ran(check: Check, top: pathlib.Path = TOP) -> Ended:
    """Runs a check in the repository."""
    started = time.monotonic()
    # Without buffers, so that what it prints and what its faults print stand in their order.
    settings = {**os.environ, "PYTHONDONTWRITEBYTECODE": "1", "PYTHONUNBUFFERED": "1"}
    # Into a file: a pipe would stay open as long as any process that the check left behind.
    with tempfile.TemporaryFile() as out:
        done = subprocess.run([sys.executable, "-m", *shlex.split(check.command)], cwd=top, env=settings, check=False,
                              stdin=subprocess.DEVNULL, stdout=out, stderr=subprocess.STDOUT)
        seconds = time.monotonic() - started
        out.seek(0)
        said = out.read().decode(errors="replace")
    return Ended(check, done.returncode if done.returncode >= 0 else 128 - done.returncode, said, seconds)


def startable(waiting: list[Check], running: list[Check]) -> Check | None:
    """The first waiting check that may run beside those that run, if there is one. A check that runs alone lets none
    behind it start before it, and starts when all before it have ended."""
    if any(check.apart == ALONE for check in running):
        return None
    for check in waiting:
        if check.apart == ALONE:
            return check if check is waiting[0] and not running else None
        if not check.apart or all(check.apart != other.apart for other in running):
            return check
    return None


def ends(checks: list[Check], jobs: int, run: Callable[[Check], Ended] = ran) -> Iterator[Ended]:
    """The checks as they end, at most so many at once."""
    waiting, running = list(checks), {}
    with concurrent.futures.ThreadPoolExecutor(jobs) as pool:
        while waiting or running:
            while len(running) < jobs and (check := startable(waiting, list(running.values()))):
                waiting.remove(check)
                running[pool.submit(run, check)] = check
            ended, _ = concurrent.futures.wait(running, return_when=concurrent.futures.FIRST_COMPLETED)
            for future in ended:
                del running[future]
                yield future.result()


def in_order(checks: list[Check], ended: Iterator[Ended]) -> Iterator[Ended]:
    """The checks that ended, in the order of the table, each as soon as those before it have ended."""
    due, early = list(checks), {}
    for one in ended:
        early[one.check] = one
        while due and due[0] in early:
            yield early.pop(due.pop(0))


def shown(one: Ended) -> str:
    """What is printed of a check that ended: a line with its name, and its output."""
    fate = "" if one.status == 0 else f", status {one.status}"
    text = one.output if one.output.endswith("\n") or not one.output else f"{one.output}\n"
    return f"== {one.check.command}: {one.seconds:.1f} s{fate}\n{text}"


def first_bad(all_ended: list[Ended]) -> Ended | None:
    """The first check, in the order of the table, with a bad status."""
    return next((one for one in all_ended if one.status), None)


def main() -> int:
    parser = argparse.ArgumentParser(description=__doc__, formatter_class=argparse.RawDescriptionHelpFormatter)
    parser.add_argument("--jobs", metavar="N", type=int, default=len(os.sched_getaffinity(0)))
    parser.add_argument("--bad-gate", action="store_true")
    parser.add_argument("--list", action="store_true")
    given = parser.parse_args()
    if given.list:
        for check in CHECKS:
            print(f"{check.command:36}{check.apart and f'not beside {check.apart}'}".rstrip())
        return 0
    started = time.monotonic()
    checks = [check for check in CHECKS if not (given.bad_gate and check.over_gate)]
    all_ended = []
    for one in in_order(checks, ends(checks, given.jobs)):
        all_ended.append(one)
        print(shown(one), end="", flush=True)
    for check in CHECKS:
        if check not in checks:
            print(f"not run, since the gate failed: {check.command}")
    bad = first_bad(all_ended)
    if bad:
        print(f"the first bad check: {bad.check.command}, status {bad.status}")
    failed = sum(1 for one in all_ended if one.status)
    seconds = time.monotonic() - started
    print(f"{len(all_ended) - failed} checks passed and {failed} failed in {seconds:.0f} s, up to {given.jobs} at once")
    return bad.status if bad else 0


if __name__ == "__main__":
    sys.exit(main())
