"""Which format a file has, and its bytes."""

from __future__ import annotations

import os
import pathlib
import zlib
from typing import Callable

from . import grid_files, obj_files, off_files, ply_files, stl_files
from .soup import MeshFileError, Soup, quiet

MOST_BYTES = 1 << 30


def read_mesh(path: "str | os.PathLike[str]") -> Soup:
    """The mesh in a file: OFF, OBJ, PLY, STL, or Geomview's MESH or QUAD, each also compressed by gzip. Raises
    MeshFileError, or OSError."""
    path = pathlib.Path(path)
    if path.is_file() and path.stat().st_size > MOST_BYTES:
        raise MeshFileError(f"more than {MOST_BYTES:,} bytes")
    return read_bytes(path.read_bytes(), path.name)


def read_bytes(data: bytes, name: str = "") -> Soup:
    """The mesh in the bytes of a file. Where they don't tell the format, the ending of the name does."""
    name = name.lower()
    if data[:2] == b"\x1f\x8b":
        data, name = unzipped(data), name.removesuffix(".gz")
    if data[:3] == b"\xef\xbb\xbf":  # a byte order mark
        data = data[3:]
    elif data[:2] in (b"\xfe\xff", b"\xff\xfe") and not name.endswith(".stl"):
        data = data.decode("utf-16", "replace").encode()
    try:
        with quiet():
            return reader_of(data, name)(data).check()
    except MemoryError:
        raise MeshFileError("there is no memory for it") from None


def reader_of(data: bytes, name: str) -> Callable[[bytes], Soup]:
    front = data[:512].lstrip().lower()
    if front.startswith(b"ply") and b"format" in front:
        return ply_files.read_ply
    if name.endswith(".stl"):
        return stl_files.read_stl
    if name.endswith(".obj"):
        return obj_files.read_obj
    if name.endswith(".ply"):
        raise MeshFileError("line 1: a PLY begins with the word `ply`")
    if stl_files.is_text(data):
        return stl_files.read_stl
    if grid_files.is_grid(data):
        return grid_files.read_grid
    return off_files.read_off


def unzipped(data: bytes) -> bytes:
    """The bytes of a gzip file, which may have several members."""
    found, size = [], 0
    while data[:2] == b"\x1f\x8b":
        tool = zlib.decompressobj(31)
        try:
            found.append(tool.decompress(data, MOST_BYTES - size + 1))
        except zlib.error as fault:
            raise MeshFileError(f"the gzip file is damaged: {str(fault).split(': ')[-1]}") from None
        size += len(found[-1])
        if size > MOST_BYTES:
            raise MeshFileError(f"uncompressed, more than {MOST_BYTES:,} bytes")
        if not tool.eof:
            raise MeshFileError("the gzip file is cut off")
        data = tool.unused_data
    return b"".join(found)
