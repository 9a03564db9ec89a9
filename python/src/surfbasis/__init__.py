"""Proved shortest homology bases (mod 2), loops and cuts of closed surface meshes.

>>> import surfbasis
>>> surface = surfbasis.Surface.from_file("meshes/eight.off", decimals=6)
>>> basis = surface.basis()
>>> len(basis), basis.length
(4, 12.262957)
>>> basis[0].length, basis[0].vertices
(1.854371, array([ 68,  73,  75,  76,  78, 155, 154, 149, 148,  70]))
>>> disc = surface.cut()
>>> len(disc.seams)
83

Every answer is that of surf, whose answers are proved; this package hands meshes over to it as text, and is tested.
"""

from ._processor import has_proved_library as _has_proved_library
from ._processor import test_processor as _test_processor

_test_processor(_has_proved_library())

from ._answers import Cut, Distances, Evidence, Info, Polygons, Verdict, Walk, Walks  # noqa: E402
from ._callers import Ended, Library, Program, TimedOut, use  # noqa: E402
from ._mending import MeshFileError  # noqa: E402
from ._refusals import (  # noqa: E402
    BaseRefused,
    CertificateRefused,
    CoordinatesRefused,
    FileRefused,
    LengthsRefused,
    LimitRefused,
    MeshRefused,
    NoMemory,
    Refused,
    SewingRefused,
    SurfaceRefused,
    VerticesRefused,
    WalkRefused,
    WordsRefused,
)
from ._showing import Shown  # noqa: E402
from ._surface import Surface  # noqa: E402
from ._version import VERSION as __version__  # noqa: E402

__all__ = [
    "BaseRefused",
    "CertificateRefused",
    "CoordinatesRefused",
    "Cut",
    "Distances",
    "Ended",
    "Evidence",
    "FileRefused",
    "Info",
    "LengthsRefused",
    "Library",
    "LimitRefused",
    "MeshFileError",
    "MeshRefused",
    "NoMemory",
    "Polygons",
    "Program",
    "Refused",
    "SewingRefused",
    "Shown",
    "Surface",
    "SurfaceRefused",
    "TimedOut",
    "Verdict",
    "VerticesRefused",
    "Walk",
    "WalkRefused",
    "Walks",
    "WordsRefused",
    "__version__",
    "use",
]
