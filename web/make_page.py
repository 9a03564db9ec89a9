#!/usr/bin/env python3
"""Makes surf.wasm and surf.html, the program as a page for a browser.

    make_page.py [--to FOLDER]                   both, out of the crate surf_c of this checkout
    make_page.py --wasm SURF.WASM [--to FOLDER]  the page alone, around a module that stands

FOLDER is web/out where none is named.

release/libraries.py proves surf_c for x86-64, and keeps the LLVM module that the toolchain hands to clang for it. The
same clang compiles that module for 64-bit WebAssembly, with heap.c and wide.c beside it. Binaryen's `wasm-opt` lowers
its addresses to 32 bits, since not every browser has the larger ones. What is proved is the code that is handed over.
All that is done with it here is tested, and not proved: docs/browser.md.
"""

import argparse
import json
import pathlib
import shutil
import subprocess
import sys
import tempfile

from release import libraries, modules
from release.modules import NARROW
from release.proof import Refused, kit_folder
from tools import TOP
from web import bundle

WEB = TOP / "web"

SAMPLES = ["ring", "eight", "three", "noisy"]

# Pointers, sizes and the order of bytes are those of x86-64, so the code may run under this layout as well.
LAYOUT = "e-m:e-p:64:64-p10:8:8-p20:8:8-i64:64-i128:128-n32:64-S128-ni:1:10:20"
TARGET = ["--target=wasm64-unknown-unknown", "-mcpu=lime1", "--no-default-config", "-no-canonical-prefixes"]
TARGET += ["-ffunction-sections"]
BY_HAND = ["-O2", "-fwrapv", "-fno-builtin", "-ffreestanding", "-nostdinc", "-Wall", "-Wextra", "-Werror"]
EXPORTS = ["surf_call", "surf_take", "surf_give"]
STACK = 1 << 20
FEATURES = ["memory64", "bulk-memory", "mutable-globals", "sign-ext", "nontrapping-float-to-int", "multivalue"]


def stop(sentence):
    """Ends the program with a sentence that says why there is no page."""
    sys.exit(f"make_page.py: {sentence}")


def ran(words, **how):
    """What a command wrote; it ends all where it fails."""
    words = [str(word) for word in words]
    done = subprocess.run(words, capture_output=True, text=True, **how)
    if done.returncode:
        stop(f"{' '.join(words[:3])} failed:\n{done.stdout[-2000:]}{done.stderr[-2000:]}")
    return done.stdout + done.stderr


def missing():
    """The first tool that isn't here, in words, or nothing."""
    tools = {"rt": "the toolchain's command rt", "wasm-opt": "wasm-opt (package binaryen)"}
    return next((words for name, words in tools.items() if not shutil.which(name)), None)


def compiled(text, kit, work):
    """The object files of the module and of the two files in C."""
    clang = kit / "toolchain/bin/clang"
    (work / "wasm.ll").write_text(modules.moved(text, LAYOUT, "wasm64-unknown-unknown"))
    ran([clang, *TARGET, *NARROW, "-O3", "-c", "-x", "ir", work / "wasm.ll", "-o", work / "surf.o"])
    for name in ("heap", "wide"):
        ran([clang, *TARGET, *NARROW, *BY_HAND, "-c", WEB / f"{name}.c", "-o", work / f"{name}.o"])
    return [work / f"{name}.o" for name in ("surf", "heap", "wide")]


def linked(objects, kit, work):
    """The module of WebAssembly, with 32-bit addresses."""
    words = ["-flavor", "wasm", "-mwasm64", "--no-entry", "--stack-first", "-z", f"stack-size={STACK}"]
    words += ["--gc-sections", "--fatal-warnings", "--strip-debug", *(f"--export={name}" for name in EXPORTS)]
    ran([kit / "toolchain/bin/ld.lld", *words, *objects, "-o", work / "surf64.wasm"])
    enabled = [f"--enable-{name}" for name in FEATURES]
    wasm = work / "surf.wasm"
    ran(["wasm-opt", *enabled, "--memory64-lowering", "--strip-debug", work / "surf64.wasm", "-o", wasm])
    return wasm.read_bytes()


class Sections:
    """The sections of a module of WebAssembly: https://www.w3.org/TR/wasm-core-2/, "Modules"."""

    def __init__(self, wasm):
        if wasm[:8] != b"\0asm\1\0\0\0":
            stop("what the linker wrote is no module of WebAssembly")
        self.bytes, self.at, self.found = wasm, 8, {}
        while self.at < len(wasm):
            kind = wasm[self.at]
            self.at += 1
            size = self.number()
            self.found.setdefault(kind, self.at)
            self.at += size

    def number(self):
        value = shift = 0
        while True:
            byte = self.bytes[self.at]
            self.at += 1
            value |= (byte & 127) << shift
            shift += 7
            if byte < 128:
                return value

    def exports(self):
        names, self.at = [], self.found[7]
        for _ in range(self.number()):
            size = self.number()
            names.append(self.bytes[self.at : self.at + size].decode())
            self.at += size + 1
            self.number()
        return sorted(names)

    def memory_flags(self):
        self.at = self.found[5]
        return self.number() and self.bytes[self.at]


def checked(wasm):
    """The module, if it asks for nothing, exports what the page calls, and has 32-bit addresses without a greatest
    size."""
    sections = Sections(wasm)
    if 2 in sections.found:
        stop("the module imports something")
    if sections.exports() != sorted([*EXPORTS, "memory"]):
        stop(f"the module exports {', '.join(sections.exports())}")
    if sections.memory_flags() != 0:
        stop("the module's memory isn't one of 32-bit addresses that may grow")
    return wasm


def module_for_browsers(work):
    """surf.wasm, and the line that says that its code is proved."""
    kit = kit_folder()
    try:
        libraries.make()
        text = modules.module_text()
    except Refused as fault:
        stop(fault)
    return checked(linked(compiled(text, kit, work), kit, work)), libraries.VERDICT.read_text().strip()


def page_of(wasm):
    """surf.html: the page with all that it needs inside."""
    samples = {name: (TOP / f"meshes/{name}.off").read_text() for name in SAMPLES}
    parts = {
        "WORKER": bundle.packed(bundle.joined(bundle.WORKER).encode()),
        "PROGRAM": bundle.packed(wasm),
        "SAMPLES": bundle.packed(json.dumps(samples).encode()),
    }
    return bundle.html("index.html", ["viewer", "finder"], bundle.VIEWER + bundle.FINDER, parts)


def main():
    parser = argparse.ArgumentParser(description=__doc__, formatter_class=argparse.RawDescriptionHelpFormatter)
    parser.add_argument("--to", type=pathlib.Path, default=WEB / "out")
    parser.add_argument("--wasm", type=pathlib.Path)
    given = parser.parse_args()
    given.to.mkdir(parents=True, exist_ok=True)
    if given.wasm:
        wasm, verdict = checked(given.wasm.read_bytes()), f"the module is {given.wasm}"
    elif missing():
        stop(f"{missing()} isn't here")
    else:
        with tempfile.TemporaryDirectory() as work:
            wasm, verdict = module_for_browsers(pathlib.Path(work))
        (given.to / "surf.wasm").write_bytes(wasm)
    page = page_of(wasm).encode()
    (given.to / "surf.html").write_bytes(page)
    print(f"{verdict}\nsurf.wasm {len(wasm)} bytes, surf.html {len(page)} bytes in {given.to}")


if __name__ == "__main__":
    main()
