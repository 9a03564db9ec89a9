"""Draws how far a mesh is from its shortest loops at a vertex: distance_from_loops.py MESH PICTURE.png [VERTEX]

The distance of a vertex is the least to a vertex of a loop, along edges."""

import sys

import numpy as np
import surfbasis
import surfbasis.plot

mesh, picture = sys.argv[1:3]
base = int(sys.argv[3]) if len(sys.argv) > 3 else 0
surface = surfbasis.Surface.from_file(mesh)
loops = surface.loops(base)

met = np.unique(np.concatenate([[base], *(loop.vertices for loop in loops)]))
distances = np.min([surface.distances(vertex).lengths for vertex in met], axis=0)
print(f"{len(loops)} loops through {len(met)} vertices; the farthest vertex is {int(np.argmax(distances))}, "
      f"{distances.max():.6g} away")

surfbasis.plot.save(picture, surface, loops, values=-distances)
