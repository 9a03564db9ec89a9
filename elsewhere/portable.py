#!/usr/bin/env python3
"""Makes surfbasis.c, the program as one function in C99, of the module that web/make_page.py makes.

    portable.py SURF.WASM --to FOLDER

wasm2c (Debian's package wabt) writes each function of the module in C. Its runtime, which installs handlers of signals
and keeps globals, isn't taken: the bodies are put over the operations of c/ops.h instead, and a body with an operation
that isn't there stops this. The file has one public name, surf_call of surf.h, which is put beside it.
"""

import argparse
import pathlib
import re
import shutil
import subprocess
import sys
import tempfile
from typing import NamedTuple

from tools import TOP

SOURCES = TOP / "elsewhere/c"
HEADER = TOP / "crates/surf_c/surf.h"
PAGE = 65536
EXPORTS = {"surf_call": "CALL", "surf_take": "TAKE", "surf_give": "GIVE"}
TYPES = ("u32", "u64", "void")
LOADS = """i32_load i64_load i32_load8_s i64_load8_s i32_load8_u i64_load8_u i32_load16_s i64_load16_s i32_load16_u
    i64_load16_u i64_load32_s i64_load32_u""".split()
STORES = "i32_store i64_store i32_store8 i32_store16 i64_store8 i64_store16 i64_store32".split()
COUNTED = [f"I{wide}_{name}" for wide in (32, 64) for name in "CLZ CTZ POPCNT DIV_S REM_S ROTL ROTR".split()]
OWN = ["surf_fill", "surf_copy", "surf_memory_grow", "UNREACHABLE"]
WORDS = "if goto return u8 u16 u32 u64 s8 s16 s32 s64 memory data it".split()
KNOWN = {*LOADS, *STORES, *COUNTED, "DIV_U", "REM_U", *OWN, *WORDS}
NOTE = "/* Made by portable.py of surf's module of WebAssembly: the program as one function (surf.h). */\n"


class Stopped(Exception):
    """The module, or what wasm2c wrote of it, has a form that wasn't met before."""


class Function(NamedTuple):
    """A function as wasm2c writes it: the type of its result, its name, its parameters and its body."""

    kind: str
    name: str
    parameters: str
    body: str


class Module(NamedTuple):
    """What wasm2c writes: the first pointer of the stack, the first and the most pages of memory, the bytes that stand
    in it at first with their addresses, the functions, and the names of those that are exported."""

    top: int
    pages: int
    most: int
    data: list[tuple[int, bytes]]
    functions: list[Function]
    exports: dict[str, str]


# ---- reading


def written_by_wasm2c(wasm: pathlib.Path) -> str:
    """The text that wasm2c writes, from its first line about this module on."""
    with tempfile.TemporaryDirectory() as room:
        made = pathlib.Path(room, "surf.c")
        subprocess.run(["wasm2c", "--no-debug-names", "-n", "surf", wasm, "-o", made], check=True)
        text = made.read_text()
    begin = text.find("static bool s_module_initialized")
    if begin < 0:
        raise Stopped("wasm2c writes in another form than that of wabt 1.0.32")
    return text[begin:]


def part(pattern: str, text: str, what: str) -> re.Match:
    found = re.search(pattern, text, re.M | re.S)
    if not found:
        raise Stopped(f"there is no {what} in what wasm2c wrote")
    return found


def bytes_of(text: str, name: str, size: int) -> bytes:
    rows = part(rf"^static const u8 data_segment_data_{name}\[\] = \{{\n(.*?)\n}};", text, name)[1]
    found = bytes(int(byte, 16) for byte in re.findall(r"0x(..)", rows))
    if len(found) != size:
        raise Stopped(f"the data {name} has another size than is said")
    return found


def functions_of(text: str) -> list[Function]:
    declared = re.findall(r"^static (\w+) (w2c_\w+)\(Z_surf_instance_t\*(.*?)\);$", text, re.M)
    bodies = r"^static (\w+) (w2c_\w+)\(Z_surf_instance_t\* instance(.*?)\) \{\n(.*?)^}$"
    found = [Function(*row) for row in re.findall(bodies, text, re.M | re.S) if not row[1].startswith("init_")]
    if [row[1] for row in declared] != [it.name for it in found]:
        raise Stopped("not each function that is declared has a body")
    return found


def read(text: str) -> Module:
    top = int(part(r"^  instance->w2c_g0 = (\d+)ull;$", text, "global")[1])
    if len(re.findall(r"instance->w2c_g\d+ = ", part(r"^static void init_globals.*?^}", text, "globals")[0])) != 1:
        raise Stopped("there are more globals than the pointer of the stack")
    if "funcref" in text or "CALL_INDIRECT" in text:
        raise Stopped("there is a table of functions")
    sizes = part(r"wasm_rt_allocate_memory\(&instance->w2c_memory, (\d+), (\d+)\);", text, "memory")
    pages, most = map(int, sizes.groups())
    loads = r"LOAD_DATA\(instance->w2c_memory, (\d+)u, data_segment_data_(\w+), (\d+)\);"
    data = [(int(at), bytes_of(text, name, int(size))) for at, name, size in re.findall(loads, text)]
    if any(at + len(content) > pages * PAGE for at, content in data):
        raise Stopped("data doesn't fit into the first pages")
    body = r"\(.*?\) \{\n  (?:return )?(w2c_\w+)\("
    exports = {name: part(rf"^\w+ Z_surfZ_{name}{body}", text, name)[1] for name in EXPORTS}
    return Module(top, pages, most, data, functions_of(text), exports)


# ---- writing


def short(text: str) -> str:
    """Variables without the mark that wasm2c puts before them, and functions with a shorter one."""
    return re.sub(r"\bw2c_", "", re.sub(r"\bw2c_(\w+)(?=\()", r"f_\1", text))


def body_of(text: str) -> str:
    """A body over the operations of ops.h."""
    text = re.sub(r"^  FUNC_(PROLOGUE|EPILOGUE);\n", "", text, flags=re.M)
    text = re.sub(r"\b(i(?:32|64)_(?:load|store)\w*)\(&instance->w2c_memory, ", r"\1(memory, data, ", text)
    text = text.replace("memory_fill(&instance->w2c_memory, ", "surf_fill(memory, ")
    text = text.replace("memory_copy(&instance->w2c_memory, &instance->w2c_memory, ", "surf_copy(memory, ")
    text = text.replace("wasm_rt_grow_memory(&instance->w2c_memory, ", "surf_memory_grow(memory, ")
    text = text.replace("instance->w2c_memory.pages", "memory->pages")
    text = text.replace("instance->w2c_g0", "it->top")
    text = re.sub(r"\b(w2c_\w+)\(instance\b", r"\1(it", text)
    if "instance" in text:
        raise Stopped(f"this isn't known: {re.search('.*instance.*', text)[0]}")
    return re.sub(r"^ +", lambda found: found[0][:2], short(text), flags=re.M)


def written(one: Function, names: set[str]) -> str:
    """A function in C. Stopped where it has a word that ops.h has not."""
    body = body_of(one.body)
    strange = sorted(set(re.findall(r"\b([A-Za-z_]\w*)\(", body)) - KNOWN - names)
    if strange or one.kind not in TYPES:
        raise Stopped(f"the function {one.name} has {', '.join(strange) or one.kind}, which ops.h has not")
    own = "  surf_memory *memory = &it->memory;\n" if re.search(r"\bmemory\b|UNREACHABLE|DIV_|REM_", body) else ""
    own += "  u8 *data = memory->data;\n" if re.search(r"\bdata\b", body) else ""
    own = own or ("" if re.search(r"\bit\b", body) else "  (void)it;\n")
    return short(f"static {one.kind} {one.name}(surf_module *it{one.parameters}) {{\n{own}{body}}}\n")


def rows_of(data: bytes) -> str:
    rows = (data[at : at + 24] for at in range(0, len(data), 24))
    return "".join(f"  {','.join(map(str, row))},\n" for row in rows)


def source_of(module: Module) -> str:
    """The module in C, over module.h."""
    names = {short(f"{it.name}(")[:-1] for it in module.functions}
    bodies = [written(it, names) for it in module.functions]
    offsets = re.findall(r"\(u64\)\(\w+\) \+ (\d+)", "".join(bodies))
    guard = (max(map(int, offsets), default=0) // PAGE + 1) * PAGE
    head = ['#include "module.h"\n\n', f"#if SURF_GUARD < {guard}\n"]
    head += ['#error "a constant that is added to an address may reach behind the guard"\n#endif\n\n']
    head += [short(f"static {it.kind} {it.name}(surf_module *it{it.parameters});\n") for it in module.functions]
    data = [f"\nstatic const u8 data{k}[{len(content)}] = {{\n{rows_of(content)}}};\n"
            for k, (_, content) in enumerate(module.data)]  # fmt: skip
    loads = [f"    memcpy(it->memory.data + {at}, data{k}, {len(content)});\n"
             for k, (at, content) in enumerate(module.data)]  # fmt: skip
    parts = {"TOP": module.top, "PAGES": module.pages, "MOST": module.most, "LOADS": "".join(loads)}
    parts |= {EXPORTS[name]: short(f"{own}(")[:-1] for name, own in module.exports.items()}
    end = re.sub(r"@([A-Z]+)@", lambda found: str(parts[found[1]]), (SOURCES / "module_end.c").read_text())
    return "".join([*head, *data, "\n", "\n".join(bodies), end])


def joined(text: str, seen: set[str]) -> str:
    """A text with the files of this folder that it includes in it, each once; surf.h stays beside it."""
    rows = []
    for row in text.splitlines():
        found = re.match(r'#include "(.*)"', row)
        name = found[1] if found else "surf.h"
        if name == "surf.h":
            rows.append(row)
        elif name not in seen:
            seen.add(name)
            rows.append(joined((SOURCES / name).read_text(), seen))
    return "\n".join(rows)


def make(wasm: pathlib.Path, to: pathlib.Path) -> pathlib.Path:
    """Writes surfbasis.c, with surf.h beside it."""
    to.mkdir(parents=True, exist_ok=True)
    seen: set[str] = set()
    texts = [(SOURCES / name).read_text() for name in ("system.h", "call.c", "memory.c")]
    texts = [texts[0], "#define SURF_OWN static", *texts[1:], source_of(read(written_by_wasm2c(wasm)))]
    (to / "surfbasis.c").write_text(NOTE + "\n".join(joined(text, seen) for text in texts) + "\n")
    shutil.copy(HEADER, to)
    return to / "surfbasis.c"


def main() -> int:
    parser = argparse.ArgumentParser(description=__doc__, formatter_class=argparse.RawDescriptionHelpFormatter)
    parser.add_argument("wasm", type=pathlib.Path)
    parser.add_argument("--to", type=pathlib.Path, required=True)
    given = parser.parse_args()
    try:
        print(make(given.wasm, given.to))
    except Stopped as fault:
        print(f"portable.py: {fault}", file=sys.stderr)
        return 1
    return 0


if __name__ == "__main__":
    sys.exit(main())
