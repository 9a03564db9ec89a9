"""Scripts around the program, in three folders.

    users      for those who have meshes: readers, the mender, cuts of small handles, pictures
    oracles    what judges answers and shares nothing with the program: searches by brute force, worked cases, trials
    house      documents, laws, the drawing of crates, and the table of all checks

`python3 tools NAME WORD ..` runs one by its name, from any folder; `python3 tools` lists those for users. Scripts of
other folders are run at the top of the repository: `python3 -m release.build`, and so on.
"""

import pathlib

TOP = pathlib.Path(__file__).resolve().parent.parent  # the folder of the repository, or of a release
