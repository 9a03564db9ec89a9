"""Makes a release of what passed the gate: programs, libraries, packages, pages, and the proof of what they are."""
