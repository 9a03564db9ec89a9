"""Which words of a call name files: the rows of `--help`, for the command in C and for node's."""

import json

from tools.oracles import commands
from tools.users.usage import is_file, is_name

NOTE = "Made of the rows of `surf --help`. A word of one or two letters is a name that the user gives, of a file if it "
NOTE += "has a capital."


def rows() -> list[str]:
    """The rows that name files."""
    return [" ".join(words) for words in commands.rows() if any(is_name(it) and is_file(it) for it in words)]


def in_c() -> str:
    listed = "".join(f'    "{row}",\n' for row in rows())
    return f"/* {NOTE} */\nstatic const char *const surf_rows[] = {{\n{listed}}};\n"


def in_javascript() -> str:
    listed = "".join(f"  {json.dumps(row)},\n" for row in rows())
    return f"// {NOTE}\nexport const ROWS = [\n{listed}];\n"
