"""The library and the program as callers: what they say, how long answers can be, threads, limits and signals."""

import ctypes
import os
import pathlib
import signal
import stat
import tempfile
import threading
import time
import unittest
from unittest import mock

import numpy as np
import surfbasis
from support import CORNERS, CUBE, PROGRAM, off_text, read, torus, walks_of
from surfbasis import _apart, _callers, _library, _processor

LIBRARY = os.fspath(_library.own_library())
HAS_LIBRARY = unittest.skipUnless(os.path.isfile(LIBRARY), "the package has no library")
TETRAHEDRON = b"OFF\n4 4 6\n0 0 0\n1 0 0\n0 1 0\n0 0 1\n3 0 1 2\n3 0 3 1\n3 0 2 3\n3 1 3 2\n"
CALLS = [
    ("info 1", [TETRAHEDRON]),
    ("info 1", [b"OFF\n0 0 0\n"]),
    ("info 1", [b"hello\n"]),
    ("loops 1 unit 2", [TETRAHEDRON]),
    ("dist 1 2 0", [TETRAHEDRON, b"SURFLEN 2\ndefault 7\n"]),
    ("dist 1 2 4", [TETRAHEDRON, b"SURFLEN 2\ndefault 7\n"]),
    ("dist 1 2 0", [TETRAHEDRON, b"0 1\n"]),
    ("confirm 1 2 3", [TETRAHEDRON, b"0 1 2 0\n", b"null 1 9\n"]),
    ("sew 1", [TETRAHEDRON]),
    ("gen torus 1000 1001", []),
    ("no such words", []),
]


class Counted:
    """A library that counts its calls, and keeps the room and the size of each answer."""

    def __init__(self):
        self.library = surfbasis.Library(LIBRARY)
        self.call, self.library._call, self.sizes = self.library._call, self.counted, []

    def counted(self, *words):
        said = self.call(*words)
        self.sizes.append((said.size, words[-1]))
        return said

    def __call__(self, words, files, room):
        return self.library(words, files, room)


def given_up(*words):
    """What a translated library answers where a call has to be given up."""
    text = b"fault: bounds\n"
    ctypes.memmove(words[-2], text, len(text))
    return _apart.Said(len(text), 255)


def script(folder, text):
    """A program of the shell."""
    path = pathlib.Path(folder, "program")
    path.write_text(f"#!/bin/sh\n{text}\n")
    path.chmod(path.stat().st_mode | stat.S_IXUSR)
    return path


class Using(unittest.TestCase):
    def setUp(self):
        self.addCleanup(surfbasis.use, surfbasis.use(None))

    @HAS_LIBRARY
    def test_both_say_the_same(self):
        library, program = surfbasis.Library(LIBRARY), surfbasis.Program(PROGRAM)
        for words, files in CALLS:
            self.assertEqual(library(words, files, 0), program(words, files, 0))

    @HAS_LIBRARY
    def test_no_call_is_made_twice(self):
        counted = Counted()
        surfbasis.use(counted)
        surfaces = [surfbasis.Surface(*read(name)) for name in ("eight", "tet", "pillow")]
        surfaces += [surfbasis.Surface(7, read("torus7")[1]), surfbasis.Surface(CORNERS, CUBE)]
        long = np.full(21, 2**32 - 1)
        surfaces += [surfaces[3].with_lengths(long), surfbasis.Surface(*torus(40, 41))]
        for surface in surfaces:
            walk = surface.cycle() or [0]
            surface.info(), surface.loops(), surface.basis(), surface.distances(), surface.lengths
            surfbasis.Surface.sew(surface.cut(0, "full")), surfbasis.Surface.sew(surface.cut())
            surface.check(surface.certify(0)), surface.confirm(walk, surface.classify(walk))
            surface.same(walk, walk), surface.shortest(walk)
            if surface.vertex_count <= 1000:
                surface.check(surface.certify())
        self.assertGreater(len(counted.sizes), 100)
        self.assertEqual([pair for pair in counted.sizes if pair[0] > pair[1]], [])

    @HAS_LIBRARY
    def test_a_room_too_small_or_too_large(self):
        library = surfbasis.Library(LIBRARY)
        mesh = off_text(*read("torus33")).encode()
        with mock.patch.object(_callers, "LEAST_ROOM", 16):
            small = library("cut 1 unit 0 full", [mesh], 0)
        self.assertEqual(small, library("cut 1 unit 0 full", [mesh], 1 << 40))
        with mock.patch.object(np, "empty", side_effect=[MemoryError, np.empty(1 << 12, np.uint8)]):
            self.assertEqual(small, library("cut 1 unit 0 full", [mesh], 1 << 20))

    def test_threads(self):
        surface = surfbasis.Surface(*read("eight"), decimals=6)
        due, found = walks_of(surface.basis()), []

        def ask():
            own = surfbasis.Surface(surface.vertices, surface.faces, decimals=6)
            found.append((walks_of(own.basis()), walks_of(surface.loops(3))))

        threads = [threading.Thread(target=ask) for _ in range(8)]
        for thread in threads:
            thread.start()
        for thread in threads:
            thread.join()
        self.assertEqual(found, [(due, walks_of(surface.loops(3)))] * 8)

    @HAS_LIBRARY
    def test_the_interpreter_goes_on_during_a_call(self):
        surfbasis.use(surfbasis.Library(LIBRARY))
        surface = surfbasis.Surface(140 * 140, torus(140, 140)[1])
        thread = threading.Thread(target=surface.basis)
        thread.start()
        steps = 0
        while thread.is_alive():
            steps += 1
            time.sleep(0.001)
        self.assertGreater(steps, 5)

    def test_time_limit(self):
        with tempfile.TemporaryDirectory() as folder:
            surfbasis.use(surfbasis.Program(script(folder, "exec sleep 60"), seconds=0.2))
            began = time.monotonic()
            with self.assertRaises(surfbasis.TimedOut):
                surfbasis.Surface(*read("tet")).info()
            self.assertLess(time.monotonic() - began, 30)
        self.assertTrue(issubclass(surfbasis.TimedOut, TimeoutError))

    def test_time_limit_of_a_question(self):
        surface = surfbasis.Surface(*read("tet"), lengths="unit")
        questions = [surface.basis, surface.cycle, lambda **words: surface.shortest([0, 1, 2], **words)]
        with tempfile.TemporaryDirectory() as folder:
            surfbasis.use(surfbasis.Program(script(folder, "exec sleep 60"), seconds=60))
            began = time.monotonic()
            for question in questions:
                with self.assertRaises(surfbasis.TimedOut):
                    question(seconds=0.2)
                for seconds in (0, -1, float("nan")):
                    with self.assertRaises(ValueError):
                        question(seconds=seconds)
            self.assertLess(time.monotonic() - began, 30)

    def test_the_answer_within_a_time_limit(self):
        surface = surfbasis.Surface(*read("eight"), decimals=6)
        cycle = surface.cycle(seconds=300)
        self.assertEqual(walks_of(surface.basis(seconds=300)), walks_of(surface.basis()))
        self.assertEqual(walks_of([cycle, surface.shortest(cycle, seconds=300)]), walks_of([surface.cycle()] * 2))
        with self.assertRaises(surfbasis.SurfaceRefused):
            surfbasis.Surface(surface.vertices, surface.faces[1:]).basis(seconds=300)

    def test_the_shorter_limit_holds(self):
        program = surfbasis.Program(PROGRAM, seconds=7)
        self.assertEqual([program.within(seconds).seconds for seconds in (3, 9)], [3, 7])
        apart = _callers.LibraryApart("libsurf.so", 7)
        self.assertEqual([apart.within(seconds).seconds for seconds in (3, 9)], [3, 7])

    @HAS_LIBRARY
    def test_the_library_apart_says_the_same(self):
        library = surfbasis.Library(LIBRARY)
        for words, files in CALLS:
            self.assertEqual(library(words, files, 0), library.within(300)(words, files, 0))
        mesh = off_text(*read("torus33")).encode()
        with mock.patch.object(_callers, "LEAST_ROOM", 16):
            small = library.within(300)("cut 1 unit 0 full", [mesh], 0)
        self.assertEqual(small, library("cut 1 unit 0 full", [mesh], 1 << 20))

    def test_the_library_apart_is_ended(self):
        apart = _callers.LibraryApart("/nowhere/libsurf.so", 0.2)
        with tempfile.TemporaryDirectory() as folder:
            with mock.patch("sys.executable", str(script(folder, "exec sleep 60"))):
                began = time.monotonic()
                self.assertRaises(surfbasis.TimedOut, apart, "info 1", [TETRAHEDRON], 0)
                self.assertLess(time.monotonic() - began, 30)
        with self.assertRaisesRegex(surfbasis.Ended, "nowhere/libsurf.so"):
            _callers.LibraryApart("/nowhere/libsurf.so", 300)("info 1", [TETRAHEDRON], 0)
        with mock.patch("sys.executable", ""), self.assertRaisesRegex(RuntimeError, "sys.executable"):
            apart("info 1", [TETRAHEDRON], 0)

    def test_a_fault_of_a_translation_is_no_answer(self):
        library = object.__new__(surfbasis.Library)
        library._call = given_up
        with self.assertRaisesRegex(surfbasis.Ended, "^fault: bounds$"):
            library("info 1", [TETRAHEDRON], 0)
        with tempfile.TemporaryDirectory() as folder:
            answer = script(folder, "printf '\\377fault: bounds\\n'")
            with mock.patch("sys.executable", str(answer)), self.assertRaisesRegex(surfbasis.Ended, "^fault: bounds$"):
                _callers.LibraryApart("libsurf.so", 60)("info 1", [TETRAHEDRON], 0)

    def test_ctrl_c(self):
        # what is started in the background may have been told to ignore it
        self.addCleanup(signal.signal, signal.SIGINT, signal.signal(signal.SIGINT, signal.default_int_handler))
        with tempfile.TemporaryDirectory() as folder:
            surfbasis.use(surfbasis.Program(script(folder, "exec sleep 60")))
            main = threading.main_thread().ident
            timer = threading.Timer(0.3, signal.pthread_kill, [main, signal.SIGINT])
            timer.start()
            began = time.monotonic()
            with self.assertRaises(KeyboardInterrupt):
                surfbasis.Surface(*read("tet")).info()
            self.assertLess(time.monotonic() - began, 30)

    def test_a_program_that_is_ended(self):
        with tempfile.TemporaryDirectory() as folder:
            surfbasis.use(surfbasis.Program(script(folder, "kill -KILL $$")))
            with self.assertRaisesRegex(surfbasis.Ended, "signal 9"):
                surfbasis.Surface(*read("tet")).info()

    def test_files_are_taken_away(self):
        with tempfile.TemporaryDirectory() as folder, mock.patch.object(tempfile, "tempdir", folder):
            surfbasis.use(surfbasis.Program(PROGRAM, seconds=60))
            self.assertEqual(surfbasis.Surface(*read("tet")).info().edges, 6)
            self.assertEqual(os.listdir(folder), [])

    def test_nothing_is_looked_for_on_the_path(self):
        with tempfile.TemporaryDirectory() as folder:
            script(folder, "exit 0").rename(pathlib.Path(folder, "surf"))
            with mock.patch.dict(os.environ, PATH=folder), self.assertRaises(FileNotFoundError):
                surfbasis.Program("surf")

    def test_by_the_environment(self):
        with mock.patch.dict(os.environ, SURFBASIS_PROGRAM=PROGRAM, SURFBASIS_SECONDS="7"):
            self.assertEqual(repr(_callers.default_caller()), repr(surfbasis.Program(PROGRAM, seconds=7.0)))
        with mock.patch.dict(os.environ, SURFBASIS_PROGRAM="", SURFBASIS_LIBRARY="/nowhere/libsurf.so"):
            with self.assertRaisesRegex(FileNotFoundError, "SURFBASIS_PROGRAM"):
                _callers.default_caller()

    def test_what_was_used_comes_back(self):
        first, second = surfbasis.Program(PROGRAM), surfbasis.Program(PROGRAM)
        surfbasis.use(first)
        self.assertIs(surfbasis.use(second), first)
        self.assertIs(_callers.caller(), second)


class Processor(unittest.TestCase):
    FLAGS = "flags\t\t: fpu sse sse2 pni ssse3 cx16 sse4_1 sse4_2 popcnt lahf_lm\n"

    def test_what_is_lacking(self):
        self.assertEqual(_processor.lacking(f"vendor_id\t: x\n{self.FLAGS}"), [])
        self.assertEqual(_processor.lacking(self.FLAGS.replace(" popcnt", "").replace(" pni", "")), ["popcnt", "pni"])
        self.assertEqual(_processor.lacking("Features : fp asimd\n"), [])

    def test_an_old_processor_is_told(self):
        with tempfile.TemporaryDirectory() as folder, mock.patch("platform.machine", return_value="x86_64"):
            path = os.path.join(folder, "cpuinfo")
            pathlib.Path(path).write_text(self.FLAGS.replace(" sse4_2", ""))
            with self.assertRaisesRegex(ImportError, "x86-64-v2; this one lacks sse4_2"):
                _processor.test_processor(True, path)
            _processor.test_processor(False, path)
            _processor.test_processor(True, os.path.join(folder, "nowhere"))
            with mock.patch("platform.machine", return_value="aarch64"):
                _processor.test_processor(True, path)


class Libraries(unittest.TestCase):
    def test_each_system_has_its_own(self):
        names = [("linux", "x86_64"), ("linux", "aarch64"), ("win32", "AMD64"), ("darwin", "arm64"),
                 ("freebsd14", "amd64")]
        due = ["libsurf.so", "libsurf-aarch64.so", "surf.dll", "libsurf-arm64.dylib", "libsurf-c.so"]
        self.assertEqual([_library.own_name(*it) for it in names], due)

    def test_one_of_c_stands_in(self):
        with tempfile.TemporaryDirectory() as name:
            folder = pathlib.Path(name)
            self.assertEqual(_library.own_library(folder), folder / _library.own_name())
            (folder / _library.FROM_C).touch()
            self.assertEqual(_library.own_library(folder), folder / _library.FROM_C)
            (folder / _library.own_name()).touch()
            self.assertEqual(_library.own_library(folder), folder / _library.own_name())


if __name__ == "__main__":
    unittest.main()
