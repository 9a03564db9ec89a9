"""The LLVM module of surf_c, which release/libraries.py keeps, as text that other processors are compiled from.

It is made for x86-64. Wherever pointers, sizes and the order of bytes are the same, it may run under another layout.
"""

import pathlib
import re
import tempfile

from release import libraries
from release.proof import Refused, kit_folder, ran

# What the module may ask for beside LLVM's own functions, and what its attributes may say of the processor.
ASKED = {"rattle_alloc", "rattle_realloc", "rattle_dealloc", "memcpy", "memmove", "memset", "memcmp"}
OF_PROCESSOR = {"probe-stack", "stack-probe-size", "target-cpu", "target-features", "frame-pointer"}

# Division of 128-bit numbers is compiled in place, so that no library of a compiler is asked for.
NARROW = ["-mllvm", "-expand-div-rem-bits=64", "-mllvm", "-expand-fp-convert-bits=64"]


def clang() -> pathlib.Path:
    return kit_folder() / "toolchain/bin/clang"


def unmet(text: str) -> str | None:
    """What the module has that wasn't met before and might mean something else elsewhere, or nothing."""
    if "llvm.x86." in text:
        return "instructions of x86"
    if re.search(r"^ .* asm ", text, re.M):
        return "code in assembly"
    if re.search(r"^ .*\b(fence|cmpxchg|atomicrmw|invoke|landingpad)\b", text, re.M) or "thread_local" in text:
        return "threads or unwinding"
    declared = set(re.findall(r"^declare .*?@([\w.$]+)\(", text, re.M))
    strange = sorted(name for name in declared - ASKED if not name.startswith("llvm."))
    if strange:
        return f"calls of {', '.join(strange)}"
    words = {name for row in re.findall(r"^attributes .*$", text, re.M) for name in re.findall(r'"([^"]*)"="', row)}
    strange = sorted(words - OF_PROCESSOR)
    return f"the attributes {', '.join(strange)}" if strange else None


def module_text(bitcode: pathlib.Path = libraries.MODULE) -> str:
    """The module as text. Refused where it has what wasn't met before."""
    flags = ["--target=x86_64-unknown-linux-gnu", "-Xclang", "-disable-llvm-passes", "-S", "-emit-llvm", "-x", "ir"]
    with tempfile.TemporaryDirectory() as room:
        made = pathlib.Path(room, "module.ll")
        ran([clang(), *flags, bitcode, "-o", made])
        text = made.read_text()
    strange = unmet(text)
    if strange:
        raise Refused(f"the LLVM module of surf_c has {strange}, which wasn't met before")
    return text


def moved(text: str, layout: str, triple: str) -> str:
    """The module under another layout and for another target, without what its attributes say of x86."""
    text = re.sub(r"^target datalayout = .*$", f'target datalayout = "{layout}"', text, flags=re.M)
    text = re.sub(r"^target triple = .*$", f'target triple = "{triple}"', text, flags=re.M)
    spoken = re.compile(f'"({"|".join(sorted(OF_PROCESSOR))})"="[^"]*"')

    def row(found):
        return re.sub(r"= \{ *\}", "= { nounwind }", spoken.sub("", found[0]))

    return re.sub(r"^attributes .*$", row, text, flags=re.M)
