"""Mesh files in, closed surfaces out: readers of OFF, OBJ, PLY and STL, and a mender for what they hold.

    soup = read_mesh("scan.ply")                # points and faces as the file lists them
    mended = mend(soup, holes="close")          # one surface, whatever the faults of the file
    pathlib.Path("scan.off").write_bytes(mended.off_text())

Standard library alone. Where numpy can be imported it does the work on whole tables, tables are arrays and not
lists, and 100,000 vertices take about a second; the surfaces are the same. `handles` takes small handles off a surface.
"""

from .files import read_bytes, read_mesh
from .mending import Mended, Report, mend, mend_all
from .soup import MeshFileError, Soup

__all__ = ["MeshFileError", "Mended", "Report", "Soup", "mend", "mend_all", "read_bytes", "read_mesh"]
