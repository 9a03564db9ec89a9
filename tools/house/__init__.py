"""Documents, laws, the drawing of crates, the meshes and pictures of the repository, and the table of all checks."""
