"""Opens a mesh along seams through far vertices, for an unfolding: unfolding_seams.py MESH OPENED.obj [COUNT]

Each next vertex is the farthest from those before. What is written is one disc, to be unfolded by other programs."""

import sys

import numpy as np
import surfbasis

mesh, opened = sys.argv[1:3]
count = int(sys.argv[3]) if len(sys.argv) > 3 else 24
surface = surfbasis.Surface.from_file(mesh)

far, nearest = [0], surface.distances(0).units
while len(far) < count:
    far.append(int(np.argmax(nearest)))
    nearest = np.minimum(nearest, surface.distances(far[-1]).units)

disc = surface.cut(0, far)
with open(opened, "w") as file:
    file.writelines("v %r %r %r\n" % tuple(place) for place in disc.vertices.tolist())
    file.writelines("f %s\n" % " ".join(str(copy + 1) for copy in face) for face in disc.faces)
print(f"{len(disc.seams)} edges are seams, through {len(set(far))} vertices")
