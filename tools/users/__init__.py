"""For those who have meshes: readers, the mender, cuts of small handles, pictures."""
