"""One call of surf: words and up to three files as bytes, to a status and a text. By the library, or by the
program."""

from __future__ import annotations

import os
import pathlib
import subprocess
import sys
import tempfile
from typing import List, Optional, Protocol, Sequence, Tuple, Union

import numpy as np
import numpy.typing as npt

from . import _apart
from ._library import own_library

Path = Union[str, "os.PathLike[str]"]

LEAST_ROOM = 1 << 12
GREATEST_ROOM = 1 << 30  # surf gives no longer answer
FAULT = 255  # no status of surf: a library that was made of C says so where the C was compiled wrongly


class TimedOut(TimeoutError):
    """A call took longer than its seconds, and was ended."""


class Ended(RuntimeError):
    """The process that was asked ended before it answered, or the library gave a call up by a fault, which it does only
    where it was translated or compiled wrongly."""


class Caller(Protocol):
    """What asks surf: the words of a command that name files by 1, 2 and 3, these files, and how long the answer can
    be."""

    def __call__(self, words: str, files: Sequence[bytes], room: int) -> Tuple[int, bytes]:
        """The status, and the answer where that is 0 or 1, else the line."""

    def within(self, seconds: float) -> Caller:
        """The same, but for a call that takes longer than so many seconds, which is ended by TimedOut."""


class Library:
    """Calls the shared library, in this process.

    The interpreter's lock is let go during a call, so that threads run side by side. A call can't be broken off:
    Ctrl-C waits for its end; one with a time limit is made in a process of its own. Raises OSError where the file
    can't be loaded."""

    def __init__(self, path: Path):
        self.path = os.path.abspath(os.fspath(path))
        self._call = _apart.surf_call(self.path)

    def __repr__(self) -> str:
        return f"Library({self.path!r})"

    def __call__(self, words: str, files: Sequence[bytes], room: int) -> Tuple[int, bytes]:
        given = _apart.arguments(words, files)
        space = _space(room)
        while True:
            said = self._call(*given, space.ctypes.data, len(space))
            if said.size <= len(space):
                return _without_fault(said.status, space[: said.size].tobytes())
            space = np.empty(said.size, np.uint8)  # the whole work is done once more

    def within(self, seconds: float) -> Caller:
        """The same library, in a process for each call, which ends after so many seconds."""
        return LibraryApart(self.path, seconds)


def _without_fault(status: int, text: bytes) -> Tuple[int, bytes]:
    """What a library said, unless it gave the call up by a fault."""
    if status == FAULT:
        raise Ended(text.decode().strip())
    return status, text


def _space(room: int) -> npt.NDArray[np.uint8]:
    """Room for an answer. Pages that aren't written take no memory; where so many may not be had, few have to do."""
    try:
        return np.empty(min(max(room, LEAST_ROOM), GREATEST_ROOM), np.uint8)
    except MemoryError:
        return np.empty(LEAST_ROOM, np.uint8)


class Program:
    """Calls the program, as a process for each call, over files in a folder for temporary files.

    Ctrl-C ends a call at once, and so does the time limit, by TimedOut.

    path:    the program, such as `crates/surf/out/surf`; it isn't looked for on PATH
    seconds: how long a call may take; None is as long as it takes

    >>> surfbasis.Program("nowhere/surf", seconds=60)
    Traceback (most recent call last):
        ...
    FileNotFoundError: nowhere/surf is no file
    """

    def __init__(self, path: Path, seconds: Optional[float] = None):
        self.path = os.path.abspath(os.fspath(path))
        self.seconds = seconds
        if not os.path.isfile(self.path):
            raise FileNotFoundError(f"{os.fspath(path)} is no file")

    def __repr__(self) -> str:
        return f"Program({self.path!r}, seconds={self.seconds})"

    def __call__(self, words: str, files: Sequence[bytes], room: int) -> Tuple[int, bytes]:
        status, out, diag = _ran([self.path, *words.split()], files, self.seconds)
        if status < 0:
            raise Ended(f"{self.path} was ended by signal {-status}")
        return status, out if status < 2 else diag

    def within(self, seconds: float) -> Caller:
        """The same program, with the shorter of two limits."""
        return Program(self.path, seconds if self.seconds is None else min(seconds, self.seconds))


class LibraryApart:
    """Calls a library in a process of this interpreter (`sys.executable`) for each call, over files in a folder for
    temporary files. A call that takes longer than so many seconds is ended by TimedOut."""

    def __init__(self, path: str, seconds: float):
        self.path, self.seconds = path, seconds

    def __call__(self, words: str, files: Sequence[bytes], room: int) -> Tuple[int, bytes]:
        if not sys.executable:
            raise RuntimeError("a time limit needs an interpreter to start, and sys.executable names none")
        size = str(min(max(room, LEAST_ROOM), GREATEST_ROOM))
        command = [sys.executable, "-I", _apart.__file__, self.path, size, *words.split()]
        status, out, diag = _ran(command, files, self.seconds)
        if status:
            raise Ended(f"the process for {self.path} ended with {status}: {diag.decode(errors='replace')}")
        return _without_fault(out[0], out[1:])

    def within(self, seconds: float) -> Caller:
        """The same library, with the shorter of two limits."""
        return LibraryApart(self.path, min(seconds, self.seconds))


def _ran(command: List[str], files: Sequence[bytes], seconds: Optional[float]) -> Tuple[int, bytes, bytes]:
    """The status of a process and what it wrote. It finds the files as 1, 2 and 3, and is ended after the seconds."""
    none, pipe = subprocess.DEVNULL, subprocess.PIPE
    with tempfile.TemporaryDirectory(prefix="surfbasis") as folder:
        for name, text in zip("123", files):
            pathlib.Path(folder, name).write_bytes(text)
        with subprocess.Popen(command, cwd=folder, stdin=none, stdout=pipe, stderr=pipe) as process:
            try:
                out, diag = process.communicate(timeout=seconds)
            except subprocess.TimeoutExpired:
                raise TimedOut(f"a call of surf took longer than {seconds} seconds") from None
            finally:
                process.kill()  # where the limit or Ctrl-C broke it off; else it has ended
                process.wait()
    return process.returncode, out, diag


def default_caller() -> Caller:
    """The caller by the environment: SURFBASIS_PROGRAM, with SURFBASIS_SECONDS, or SURFBASIS_LIBRARY, is its path.
    Else the library that came with the package."""
    program = os.environ.get("SURFBASIS_PROGRAM")
    if program:
        seconds = os.environ.get("SURFBASIS_SECONDS")
        return Program(program, float(seconds) if seconds else None)
    library = os.environ.get("SURFBASIS_LIBRARY") or os.fspath(own_library())
    if not os.path.isfile(library):
        raise FileNotFoundError(f"{library} isn't there; SURFBASIS_LIBRARY or SURFBASIS_PROGRAM may name another")
    return Library(library)


_used: Optional[Caller] = None


def caller(seconds: Optional[float] = None) -> Caller:
    """What asks surf now, with a time limit where there is one. ValueError where that isn't above 0."""
    global _used
    if _used is None:
        _used = default_caller()
    if seconds is None:
        return _used
    if not seconds > 0:
        raise ValueError(f"a time limit is above 0 seconds, and not {seconds}")
    return _used.within(seconds)


def use(new: Optional[Caller]) -> Optional[Caller]:
    """Makes all later calls, of all threads, by a `Library`, a `Program`, or, by None, by what the environment says.

    Returns what was used before, so that it can be put back.

    >>> import surfbasis
    >>> before = surfbasis.use(None)
    >>> _ = surfbasis.use(before)
    """
    global _used
    before, _used = _used, new
    return before
