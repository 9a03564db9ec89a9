"""Seconds and megabytes: of the program, of those of others, and of what stands beside them."""
