"""Prints a least system of loops at a vertex, with lengths from coordinates.

    loops.py LIBRARY MESH VERTEX

The library is a shared one, made of the static library `surf_c` (docs/calling.md). The status is that of surf.
"""

import ctypes
import pathlib
import sys


class Said(ctypes.Structure):
    _fields_ = [("size", ctypes.c_size_t), ("status", ctypes.c_uint8)]


def opened(path):
    call = ctypes.CDLL(path).surf_call
    call.restype = Said
    call.argtypes = [ctypes.c_char_p, ctypes.c_size_t] * 5
    return call


def surf(call, words, *files):
    """The status and the text for words that name the files by 1, 2 and 3."""
    slices = [words.encode(), *files, *[b""] * (3 - len(files))]
    size = 1 << 16
    while True:
        room = ctypes.create_string_buffer(size)
        pairs = [part for piece in slices for part in (piece, len(piece))]
        said = call(*pairs, room, size)
        if said.size <= size:
            return said.status, room.raw[: said.size]
        size = said.size


def main():
    call = opened(sys.argv[1])
    mesh = pathlib.Path(sys.argv[2]).read_bytes()
    status, text = surf(call, "lengths 1 6", mesh)
    if status == 0:
        status, text = surf(call, f"loops 1 2 {sys.argv[3]}", mesh, text)
    (sys.stdout if status < 2 else sys.stderr).buffer.write(text)
    return status


if __name__ == "__main__":
    sys.exit(main())
