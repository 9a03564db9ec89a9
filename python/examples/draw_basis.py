"""Draws a shortest homology basis of a mesh: draw_basis.py MESH PICTURE.png

Each cycle has a colour of its own; faces are the brighter the farther they are from vertex 0."""

import sys

import surfbasis
import surfbasis.plot

mesh, picture = sys.argv[1:3]
surface = surfbasis.Surface.from_file(mesh)
info, basis = surface.info(), surface.basis()

if info.orientable:
    print(f"genus {info.genus}: {len(basis)} cycles of the length {basis.length:.6g} in all")
else:
    print(f"{info.crosscaps} crosscaps: {len(basis)} cycles of the length {basis.length:.6g} in all")
for cycle in basis:
    print(f"{cycle.length:12.6g}  {cycle.vertices.tolist()}")

surfbasis.plot.save(picture, surface, basis, values=surface.distances(0).lengths)
