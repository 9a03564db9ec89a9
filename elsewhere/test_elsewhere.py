#!/usr/bin/env python3
"""Tests of what makes the program for other systems: python3 -m elsewhere.test_elsewhere"""

import contextlib
import io
import os
import pathlib
import runpy
import shutil
import subprocess
import tempfile
import unittest
from unittest import mock

from elsewhere import file_words, make_parts, native, portable, times
from elsewhere.native import Refused, modules
from tools import TOP

HERE = TOP / "elsewhere"


COMPILER = shutil.which(os.environ.get("CC", "cc"))
FLAGS = ["-O2", "-std=c99", "-Wall", "-Wextra", "-Werror", f"-I{TOP / 'crates/surf_c'}", f"-I{HERE / 'c'}"]
MODULE = """\
target datalayout = "e-m:e-p270:32:32-i64:64-S128"
target triple = "x86_64-unknown-linux-gnu"
define noundef { i64, i8 } @surf_call(ptr %a0, i64 %a1) #0 {
  ret { i64, i8 } zeroinitializer
}
declare { i64, i64 } @rattle_alloc(i64 noundef, i64 noundef) #1
declare void @rattle_dealloc(ptr noundef) #1
declare void @llvm.trap() #2
attributes #0 = { nounwind "frame-pointer"="all" "target-cpu"="x86-64-v2" }
attributes #1 = { "target-cpu"="x86-64-v2" }
"""
# As wasm2c of wabt 1.0.32 writes a module.
WRITTEN = """\
static bool s_module_initialized = false;
static u64 w2c_call(Z_surf_instance_t*, u32);
static void w2c_give(Z_surf_instance_t*, u64);
static void init_globals(Z_surf_instance_t* instance) {
  instance->w2c_g0 = 1048576ull;
}
static const u8 data_segment_data_d0[] = {
  0x68, 0x69,
};
static void init_memories(Z_surf_instance_t* instance) {
  wasm_rt_allocate_memory(&instance->w2c_memory, 18, 65536);
  LOAD_DATA(instance->w2c_memory, 1024u, data_segment_data_d0, 2);
}
static u64 w2c_call(Z_surf_instance_t* instance, u32 w2c_p0) {
  FUNC_PROLOGUE;
  u32 w2c_i0;
  w2c_i0 = w2c_p0;
  w2c_i0 = i32_load(&instance->w2c_memory, (u64)(w2c_i0) + 8);
  FUNC_EPILOGUE;
  return w2c_i0;
}
static void w2c_give(Z_surf_instance_t* instance, u64 w2c_p0) {
  FUNC_PROLOGUE;
  w2c_call(instance, 1);
  FUNC_EPILOGUE;
}
u64 Z_surfZ_surf_call(Z_surf_instance_t* instance, u32 a) {
  return w2c_call(instance, a);
}
u64 Z_surfZ_surf_take(Z_surf_instance_t* instance, u32 a) {
  return w2c_call(instance, a);
}
void Z_surfZ_surf_give(Z_surf_instance_t* instance, u64 a) {
  w2c_give(instance, a);
}
"""


class Words(unittest.TestCase):
    """What wheels and the source distribution say of themselves."""

    def said(self, name):
        with tempfile.TemporaryDirectory() as room:
            make_parts.packaging.describe(room, make_parts.kind_of(name))
            return [pathlib.Path(room, name).read_text() for name in ("README.md", "pyproject.toml")]

    def test_no_translation_is_called_proved_and_none_for_macos_tested(self):
        for name, (system, _) in make_parts.WHEELS.items():
            readme, settings = self.said(name)
            self.assertNotIn("Proved", readme + settings)
            self.assertIn("is not proved", readme)
            self.assertIn(f'classifiers = ["{system}", ', settings)
            for text in (readme, settings):
                self.assertEqual("untried" in text, name.startswith("macos"))
                self.assertEqual("translation is tested" in text, not name.startswith("macos"))

    def test_each_target_has_words_and_the_name_that_the_package_looks_for(self):
        self.assertEqual(set(make_parts.WHEELS), set(native.TARGETS))
        library = runpy.run_path(str(TOP / "python/src/surfbasis/_library.py"))
        systems = {"linux": "linux", "windows": "win32", "macos": "darwin"}
        for name, target in native.TARGETS.items():
            machine = "AMD64" if target.system == "windows" else name.split("-")[1]
            self.assertEqual(library["own_name"](systems[target.system], machine), target.library)


class Lacking(unittest.TestCase):
    """What isn't here is said, and nothing fails for it."""

    def test_a_wheel_and_the_source_distribution_want_an_interpreter_with_what_makes_them(self):
        with (
            mock.patch.object(shutil, "which", lambda name: name),
            mock.patch.object(make_parts.packaging, "found_interpreter", lambda: None),
        ):
            lacks = {part: make_parts.lacking(part) for part in make_parts.PARTS}
        self.assertIsNone(lacks.pop("node"))
        self.assertEqual(set(lacks.values()), {"an interpreter with numpy, pip, setuptools, venv, wheel isn't here"})

    def test_each_part_says_its_tool(self):
        due = {"linux-aarch64": "aarch64-linux-gnu-gcc", "sdist": "wasm2c", "node": "wasm-opt"}
        for part, tool in due.items():
            with mock.patch.object(shutil, "which", lambda name: None if name == tool else name):
                self.assertEqual(make_parts.lacking(part), f"{tool} isn't here")


class InC(unittest.TestCase):
    @unittest.skipUnless(COMPILER, "a compiler of C isn't here")
    def test_operations_and_calls(self):
        with tempfile.TemporaryDirectory() as room:
            for name in ("test_ops", "test_call"):
                program = pathlib.Path(room, name)
                subprocess.run([COMPILER, *FLAGS, "-o", program, HERE / f"{name}.c"], check=True)
                self.assertEqual(subprocess.run([program]).returncode, 0, name)


class FileWords(unittest.TestCase):
    ROWS = [["info", "M"], ["cut", "M", "L", "x", "through", "P"], ["gen", "torus", "a", "b"], ["same", "M", "W", "W2"]]

    def test_rows_that_name_files(self):
        with mock.patch.object(file_words.commands, "rows", lambda: self.ROWS):
            self.assertEqual(file_words.rows(), ["info M", "cut M L x through P", "same M W W2"])
            self.assertIn('    "cut M L x through P",\n', file_words.in_c())
            self.assertIn('  "same M W W2",\n', file_words.in_javascript())

    def test_the_program_has_such_rows(self):
        self.assertIn("info M", file_words.rows())


class Native(unittest.TestCase):
    def moved(self, name, layout, text=MODULE):
        with mock.patch.object(native, "layout_of", lambda triple: layout):
            return native.module_for(native.TARGETS[name], text)

    def test_a_module_for_another_processor(self):
        self.assertIsNone(modules.unmet(MODULE))
        text = self.moved("linux-aarch64", "e-m:e-i64:64")
        self.assertIn('target datalayout = "e-m:e-i64:64"\ntarget triple = "aarch64-unknown-linux-gnu"\n', text)
        self.assertNotIn("x86", text)
        self.assertIn("attributes #1 = { nounwind }", text)
        self.assertEqual(text.count("@rattle_alloc(i64"), 1)
        self.assertIn("@surf_call(ptr %a0", text)

    def test_windows_has_the_place_of_what_is_said(self):
        text = self.moved("windows-x86_64", "e-m:w")
        self.assertIn("define internal noundef { i64, i8 } @surf_call_in(ptr %a0", text)
        self.assertIn("define ptr @surf_call(ptr %said,", text)
        with self.assertRaises(Refused):
            self.moved("windows-x86_64", "e-m:w", MODULE.replace("@surf_call", "@other"))

    def test_processors_that_are_unlike(self):
        for layout in ("E-m:e-i64:64", "e-m:e-p:32:32"):
            with self.assertRaises(Refused):
                self.moved("linux-aarch64", layout)

    def test_what_was_not_met(self):
        strange = {"declare void @other()\n": "calls of other", "  %r = cmpxchg ptr %a\n": "threads or unwinding",
                   'attributes #3 = { "new"="1" }\n': "the attributes new",
                   "declare void @llvm.x86.it()\n": "instructions of x86"}  # fmt: skip
        for row, due in strange.items():
            self.assertEqual(modules.unmet(MODULE + row), due)

    def test_what_else_is_asked_for(self):
        native.only({"a"}, {"a", "b"}, "it")
        with self.assertRaisesRegex(Refused, "it asks for c"):
            native.only({"a", "c"}, {"a"}, "it")

    def test_a_target_without_its_linker(self):
        with mock.patch.object(shutil, "which", lambda name: "rt" if name == "rt" else None):
            self.assertEqual(native.lacking(native.TARGETS["linux-aarch64"]), "aarch64-linux-gnu-gcc isn't here")
            with contextlib.redirect_stdout(io.StringIO()) as said:
                self.assertEqual(native.made(), {})
            self.assertEqual(said.getvalue().count("isn't made, since"), len(native.TARGETS))


class Portable(unittest.TestCase):
    def test_a_module_in_c(self):
        module = portable.read(WRITTEN)
        self.assertEqual((module.top, module.pages, module.most, module.data), (1048576, 18, 65536, [(1024, b"hi")]))
        text = portable.source_of(module)
        self.assertIn("  i0 = i32_load(memory, data, (u64)(i0) + 8);\n", text)
        self.assertIn("static u64 f_call(surf_module *it, u32 p0) {\n", text)
        self.assertIn("  f_call(it, 1);\n", text)
        self.assertIn("    it->top = 1048576;\n    if (!surf_memory_begin(&it->memory, 18, 65536)) return 0;\n", text)
        self.assertNotIn("instance", text)

    def test_forms_that_were_not_met(self):
        for old, new in (("i32_load(", "f64_load("), ("static u64 w2c_call(Z_surf_instance_t*, u32);\n", ""),
                         ("0x68, 0x69,", "0x68,"), ("2c_g0 = 1048576ull;", "2c_g0 = 1ull;\n  instance->w2c_g1 = 1ull;"),
                         ("1024u", "1179648u"), ("return w2c_i0;", "return instance->w2c_T0;"),
                         ("Z_surfZ_surf_take", "Z_surfZ_other")):  # fmt: skip
            with self.assertRaises(portable.Stopped, msg=new):
                portable.source_of(portable.read(WRITTEN.replace(old, new)))


class Times(unittest.TestCase):
    def test_a_way_without_its_tool_is_passed_over(self):
        with tempfile.TemporaryDirectory() as room, contextlib.redirect_stdout(io.StringIO()) as said:
            with mock.patch.object(shutil, "which", lambda name: None if name in ("rt", "node") else name):
                self.assertEqual(times.ways(pathlib.Path(room)), {})
        self.assertEqual(said.getvalue().count("isn't measured, since rt isn't here"), len(times.WAYS))

    def test_the_greatest_ratio_and_the_most_memory_of_each_way(self):
        def run(seconds, megabytes):
            found = times.speed.Runner([], None)
            found.least = seconds, megabytes
            return found

        with contextlib.redirect_stdout(io.StringIO()) as said:
            all_runs = [[run(1.0, 10), run(1.5, 40)], [run(2.0, 30), run(2.2, 20)]]
            times.print_greatest(all_runs, ["program", "C"])
        self.assertEqual(said.getvalue(), "\nthe greatest ratios: C 1.50\nthe most MB: program 30, C 40\n")


if __name__ == "__main__":
    unittest.main()
