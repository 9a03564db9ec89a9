"""One call of the library in a process of its own, which can be ended while it works.

    python -I _apart.py LIBRARY ROOM WORD.. > ANSWER

The words name the files 1, 2 and 3 of the folder that it is started in. ANSWER begins with a byte for the status. This
imports no package, so that the process starts at once.
"""

import ctypes
import mmap
import os
import sys
from typing import Any, List, Sequence, Tuple


class Said(ctypes.Structure):
    """How many bytes the whole answer has, and the status."""

    _fields_ = [("size", ctypes.c_size_t), ("status", ctypes.c_uint8)]


def surf_call(path: str) -> Any:
    """The function of the library. Raises OSError where the file can't be loaded."""
    call = ctypes.CDLL(path).surf_call
    call.restype = Said
    call.argtypes = [ctypes.c_char_p, ctypes.c_size_t] * 4 + [ctypes.c_void_p, ctypes.c_size_t]
    return call


def arguments(words: str, files: Sequence[bytes]) -> List[Any]:
    """What the function takes but for the room: the words and three files, each with its size."""
    slices = [words.encode(), *files, b"", b"", b""][:4]
    return [part for piece in slices for part in (piece, len(piece))]


def _content(name: str) -> bytes:
    if not os.path.exists(name):
        return b""
    with open(name, "rb") as file:
        return file.read()


def _answer(call: Any, given: List[Any], room: int) -> Tuple[int, bytes]:
    """The status and the answer. Pages of the room that aren't written take no memory."""
    while True:
        space = mmap.mmap(-1, room)
        said = call(*given, ctypes.addressof(ctypes.c_char.from_buffer(space)), room)
        if said.size <= room:
            return said.status, space[: said.size]
        room = said.size


def main() -> None:
    """Writes the status and the answer."""
    library, room, *words = sys.argv[1:]
    status, text = _answer(surf_call(library), arguments(" ".join(words), [_content(name) for name in "123"]),
                           int(room))
    sys.stdout.buffer.write(bytes([status]) + text)


if __name__ == "__main__":
    main()
