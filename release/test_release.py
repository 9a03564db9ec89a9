#!/usr/bin/env python3
"""Tests of what makes a release, on stand-ins: python3 -m release.test_release"""

import os
import pathlib
import shutil
import subprocess
import tarfile
import tempfile
import unittest
from unittest import mock

from release import axioms, completions, fresh, libraries, manual, packages, pages, proof, trees, versions
from tools import TOP
from tools.oracles import check_sessions
from tools.users.usage import Row, meaning_of, names_of, read_usage

HELP = """\
surf: loops of meshes

usage: surf info M             counts
       surf cut M L x full     the mesh cut into one disc
       surf cut M L x trim     the same, with loose ends left uncut
       surf cut M L x through P  the same, through vertices
       surf same M W W2        whether two walks go round the same way
       surf lengths M k        the lengths, in units of 10^-k
       surf --help | --version

files: M  a mesh in OFF
       L  the word unit, or a file
       W  a closed walk
       P  vertices on one line
numbers: x a vertex from 0; k from 0 to 9; lengths whole

example: surf lengths a.off 6 > a.len; surf info a.off
"""
USAGE = read_usage(HELP)
FORMATS = """\
# What it reads

Every file is read by lines, with `-k` and −1.

## Commands

| Words | What |
|---|---|
| `info M` | counts, a `'` and 2 · χ |
| `lengths M k` with k at most 9 | *all* lengths |

## Meshes: OFF

1. First. Then `header L`.
2. .. and so on.
"""
LOG = "rt: surf proved\nrt: ok; handles allowed: none; all anew\n5 passed, 0 failed\n2000 passed, 1 failed\n"


class Help(unittest.TestCase):
    def test_rows(self):
        self.assertEqual(USAGE.rows[0], Row(["info", "M"], "counts"))
        self.assertEqual(USAGE.rows[3], Row(["cut", "M", "L", "x", "through", "P"], "the same, through vertices"))
        self.assertEqual(len(USAGE.rows), 6)
        self.assertEqual(USAGE.title, "loops of meshes")

    def test_letters(self):
        self.assertEqual(names_of(USAGE), ["M", "L", "P", "W", "W2", "x", "k"])
        self.assertEqual([meaning_of(USAGE, it) for it in ("P", "W2", "k", "g")],
                         ["vertices on one line", "a closed walk", "from 0 to 9", "a number"])

    def test_a_text_without_parts(self):
        with self.assertRaises(ValueError):
            read_usage(HELP.replace("example:", "for example:"))


class Page(unittest.TestCase):
    PAGE = manual.manual(USAGE, FORMATS, "surf", "1.2.3", "2026-11-30")

    def test_lines(self):
        lines = self.PAGE.splitlines()
        self.assertEqual(lines[0], '.TH SURF 1 2026-11-30 "surf 1.2.3" "User Commands"')
        self.assertIn("\\fBsurf\\fR \\fBcut\\fR \\fIM\\fR \\fIL\\fR \\fIx\\fR \\fBthrough\\fR \\fIP\\fR", lines)
        self.assertIn("Every file is read by lines, with \\fB\\-k\\fR and \\[mi]1.", lines)
        self.assertIn("counts, a \\fB\\[aq]\\fR and 2 \\[pc] \\[u03C7]", lines)
        self.assertIn("\\fIall\\fR lengths", lines)
        self.assertIn("\\&.. and so on.", lines)

    def test_wrapped_lists(self):
        self.assertEqual(manual.block_as_roff("1. one\n   line\n2. two"), ".IP 1. 4\none line\n.IP 2. 4\ntwo")
        self.assertEqual(manual.block_as_roff("- one\n  line\n- two"), ".IP \\(bu 4\none line\n.IP \\(bu 4\ntwo")

    def test_words_that_lack(self):
        due = pages.words_of_markdown(FORMATS)
        self.assertEqual(pages.missing_words(due, pages.words_of_page(self.PAGE)), [])
        shorter = self.PAGE.replace("Then \\fBheader L\\fR.\n", "")
        self.assertEqual(pages.missing_words(due, pages.words_of_page(shorter))[:2], ["Then", "header"])

    def test_words_without_mandoc(self):
        which, shutil.which = shutil.which, lambda name: None
        try:
            due = pages.words_of_markdown(FORMATS)
            self.assertEqual(pages.missing_words(due, pages.words_of_page(self.PAGE)), [])
        finally:
            shutil.which = which

    def test_rows_that_lack(self):
        text = completions.bash(USAGE, "surf").replace("'info M'", "")
        self.assertIn("surf.bash has no row info M", pages.row_faults(USAGE, {"surf.bash": text}))


class Shell(unittest.TestCase):
    def completed(self, *words, usage=USAGE):
        """What bash finds for the last word, in a folder with some files."""
        with tempfile.TemporaryDirectory() as room:
            for name in ("a.off", "b c.off", "notes.txt"):
                pathlib.Path(room, name).touch()
            script = completions.bash(usage, "surf") + 'COMP_WORDS=("$@") COMP_CWORD=$(($# - 1)); _surf; '
            script += 'printf "%s\\n" "${COMPREPLY[@]}"'
            command = ["bash", "-c", script, "-", *words]
            ran = subprocess.run(command, cwd=room, capture_output=True, text=True, check=True)
        return [line for line in ran.stdout.split("\n") if line]

    def test_words_of_rows(self):
        self.assertEqual(self.completed("surf", "c"), ["cut"])
        self.assertEqual(self.completed("surf", "--"), ["--help", "--version"])
        self.assertEqual(self.completed("surf", "cut", "a.off", "unit", "0", ""), ["full", "through", "trim"])
        self.assertEqual(self.completed("surf", "cut", "a.off", "unit", "0", "t"), ["through", "trim"])
        self.assertEqual(self.completed("surf", "cut", "a.off", "unit", "0", "full", ""), [])

    def test_a_word_behind_names(self):
        rows = ("basis M L         a basis", "basis M L large   of a large mesh", "shortest M L W large  a walk")
        more = "".join(f"       surf {row}\n" for row in rows)
        usage = read_usage(HELP.replace("       surf --help", f"{more}       surf --help"))
        for words in (["basis", "a.off", "unit"], ["shortest", "a.off", "unit", "notes.txt"]):
            self.assertEqual(self.completed("surf", *words, "", usage=usage), ["large"])
            self.assertEqual(self.completed("surf", *words, "la", usage=usage), ["large"])
            self.assertEqual(self.completed("surf", *words, "t", usage=usage), [])
            self.assertEqual(self.completed("surf", *words, "large", "", usage=usage), [])
        self.assertEqual(self.completed("surf", "lengths", "a.off", "6", "", usage=usage), [])

    def test_files(self):
        self.assertEqual(self.completed("surf", "info", ""), ["a.off", "b c.off"])
        self.assertEqual(self.completed("surf", "cut", "a.off", ""), ["a.off", "b c.off", "notes.txt", "unit"])
        self.assertEqual(self.completed("surf", "cut", "a.off", "unit", "0", "through", "n"), ["notes.txt"])
        self.assertEqual(self.completed("surf", "lengths", "a.off", ""), [])


class Gates(unittest.TestCase):
    def test_what_a_log_says(self):
        self.assertEqual(proof.gate_of(LOG), proof.Gate("5 passed, 0 failed", "ok; handles allowed: none; all anew"))
        bad = ["", "5 passed, 0 failed\n", LOG.replace("ok;", "FAILED:"), LOG.replace("5 passed, 0", "5 passed, 1"),
               "rt: ok; all anew\n5 passed, 1 failed\n2000 passed, 0 failed\n",
               "rt: ok; the crates below passed\n5 passed, 0 failed (surf and the crates below: not the gate)\n"]
        for text in bad:
            with self.assertRaises(proof.Refused, msg=text):
                proof.gate_of(text)

    def checkout(self, room):
        """A checkout of three crates and two wrong bodies, its program, and a log behind them."""
        top, log = pathlib.Path(room, "top"), pathlib.Path(room, "log")
        wrong_bodies = ("b/must-fail/one.edit", "b/must-fail/two.edit")
        for name in ("a/src/lib.rt", "b/src/lib.rt", "c/proofs/Lib.antt", *wrong_bodies):
            path = top / "crates" / name
            path.parent.mkdir(parents=True, exist_ok=True)
            path.touch()
        (top / "crates.txt").write_text("# Crates.\na:\nb: a  # above\n\nc: b\n")
        program = top / "crates/surf/out/surf"
        program.parent.mkdir(parents=True)
        program.touch()
        log.write_text(LOG)
        os.utime(log, (2e9, 2e9))
        return top, log, program

    def test_a_log_of_this_checkout(self):
        with tempfile.TemporaryDirectory() as room:
            top, log, program = self.checkout(room)
            self.assertEqual(proof.gate_by_log(log, "abc", top).last, "5 passed, 0 failed")
            os.utime(top / "crates/b/src/lib.rt", (3e9, 3e9))
            with self.assertRaisesRegex(proof.Refused, "newer"):
                proof.gate_by_log(log, "abc", top)
            os.utime(top / "crates/b/src/lib.rt", (1e9, 1e9))
            os.utime(program, (3e9, 3e9))
            with self.assertRaisesRegex(proof.Refused, "program"):
                proof.gate_by_log(log, "abc", top)

    def test_a_log_that_names_commit_and_program(self):
        with tempfile.TemporaryDirectory() as room:
            top, log, program = self.checkout(room)
            tries = ("abc", "", True), ("abd", "", False), ("no commit", "", False), ("abc", "x", False)
            for commit, content, right in tries:
                program.write_text("")
                log.write_text(f"{LOG}built from {commit}: surf {proof.checksum(program)}\n")
                os.utime(log, (2e9, 2e9))
                program.write_text(content)
                if right:
                    self.assertIn("names this commit", proof.gate_by_log(log, "abc", top).known)
                else:
                    with self.assertRaisesRegex(proof.Refused, "another program"):
                        proof.gate_by_log(log, "abc", top)

    def test_a_log_of_another_checkout(self):
        with tempfile.TemporaryDirectory() as room:
            top, log, _ = self.checkout(room)
            (top / "crates/b/must-fail/two.edit").unlink()
            with self.assertRaisesRegex(proof.Refused, "5 passed .* 4 crates"):
                proof.gate_by_log(log, "abc", top)


class Libraries(unittest.TestCase):
    CRATES = {"low": [], "kept": ["low", "memchr"], "surf_c": ["kept"], "apart": []}

    def setUp(self):
        room = tempfile.TemporaryDirectory()
        self.addCleanup(room.cleanup)
        self.top = pathlib.Path(room.name)
        program = self.top / "crates/surf/out/surf"
        for name in ("low", "kept"):
            rlib = self.top / f"crates/{name}/out/rlib/{name}.rlib"
            rlib.mkdir(parents=True)
            (rlib / "format").touch()
        for path in (program, self.top / "crates/low/src/lib.rt", self.top / "crates.txt"):
            path.parent.mkdir(parents=True, exist_ok=True)
            path.touch()
        os.utime(program, (4e9, 4e9))
        for name, value in (("TOP", self.top), ("PROGRAM", program)):
            patch = mock.patch.object(libraries, name, value)
            patch.start()
            self.addCleanup(patch.stop)

    def test_what_a_gate_left(self):
        self.assertTrue(libraries.left_by_gate(self.CRATES))
        os.utime(self.top / "crates/low/src/lib.rt", (5e9, 5e9))
        self.assertFalse(libraries.left_by_gate(self.CRATES), "a source is newer than the program")

    def test_what_no_gate_left(self):
        (self.top / "crates/kept/out/rlib/stamp").touch()
        self.assertFalse(libraries.left_by_gate(self.CRATES), "rt check made a library")
        (self.top / "crates/kept/out/rlib/stamp").unlink()
        (self.top / "crates/low/out/rlib/low.rlib/format").unlink()
        self.assertFalse(libraries.left_by_gate(self.CRATES), "a library isn't there")

    def test_the_module_is_kept(self):
        kit, kept = self.top / "kit", self.top / "kept.bc"
        (kit / "toolchain/bin").mkdir(parents=True)
        (kit / "toolchain/lib").mkdir()
        for name, text in (("clang", 'echo "clang $@"'), ("ld.lld", "echo lld")):
            (kit / "toolchain/bin" / name).write_text(f"#!/bin/sh\n{text}\n")
            (kit / "toolchain/bin" / name).chmod(0o755)
        (self.top / "it.bc").write_text("module")
        tools = libraries.keeping_toolchain(kit, self.top / "tools", kept)
        self.assertEqual(proof.ran([tools / "bin/clang", "-c", self.top / "it.bc"]), f"clang -c {self.top}/it.bc\n")
        self.assertEqual(kept.read_text(), "module")
        self.assertEqual(proof.ran([tools / "bin/ld.lld"]), "lld\n")
        self.assertTrue((tools / "lib").is_dir())

    def test_what_is_not_proved_or_kept_is_refused(self):
        (self.top / "kit/toolchain/bin").mkdir(parents=True)
        for verdict in ("logic=not-proved", "logic=proved functions=1"):
            said = mock.patch.object(libraries, "ran", lambda *words, **how: f"{verdict}\n")
            kit = mock.patch.object(libraries, "kit_folder", lambda: self.top / "kit")
            with said, kit, self.assertRaisesRegex(proof.Refused, verdict):
                libraries.build(self.CRATES)

    def test_an_object_of_another_program_is_refused(self):
        def tool(words, **how):
            pathlib.Path(words[words.index("-o") + 1]).write_text("built again")
            return "logic=proved functions=1\n"

        program, made = self.top / "crates/surf/out/surf", self.top / "crates/surf/out/surf.o"
        crates = {**self.CRATES, "surf": ["kept"]}
        kit = mock.patch.object(libraries, "kit_folder", lambda: self.top / "kit")
        with mock.patch.object(libraries, "ran", tool), kit, mock.patch.object(libraries, "OBJECT", made):
            program.write_text("the gate's")
            with self.assertRaisesRegex(proof.Refused, "byte by byte"):
                libraries.build_object(crates)
            self.assertFalse(made.exists())
            program.write_text("built again")
            libraries.build_object(crates)
            self.assertEqual(made.read_text(), "built again")


class Axioms(unittest.TestCase):
    """The list of contracts of C functions, over a kit that declares six."""

    SAID = ("axioms libc: 2 reached of the 4 declared\n  libc::heap::take   reached\n  libc::pipe2\n"
            "  libc::read   reached\n  libc::write\n")
    SAID += "axioms os: none reached of the 2 declared\n  os::c::open\n  os::c::arg\nlogic=proved functions=1\n"
    LIBC = ('unsafe extern "C" {\n    // fn none(a: i32)\n    pub safe fn read(fd: i32);\n    pub fn write(fd: i32)\n'
            '        requires { W fd };\n    fn pipe2();\n}\nfn own() {}\n')
    HEAP = 'mod c {\n    unsafe extern "C" {\n        pub fn take(n: usize);\n    }\n    fn other() {}\n}\n'
    OS = 'unsafe extern "C" {\n    pub safe fn arg();\n    pub fn open(path: &[u8]);\n}\n'
    LIST = axioms.Reached({"libc::read", "libc::heap::take", "libc::pipe2", "os::c::open"}, {"libc::heap::take"},
                          {"libc::read", "libc::heap::take", "os::c::open"})
    PAGE = f"# Proved\n\n{axioms.section(LIST, 6)}\n## Next\n"

    def setUp(self):
        room = tempfile.TemporaryDirectory()
        self.addCleanup(room.cleanup)
        self.top = pathlib.Path(room.name)
        for name, text in (("libc/src/lib.rt", self.LIBC), ("libc/src/heap.rt", self.HEAP), ("os/src/c.rt", self.OS),
                           ("std/src/lib.rt", "fn a() {}\n")):
            path = self.top / "rattle" / name
            path.parent.mkdir(parents=True, exist_ok=True)
            path.write_text(text)

    def faults(self, page=PAGE, program="take read open memcpy", library="take", report=""):
        files = [self.top / name for name in ("surf.o", "it.a", "it.axioms")]
        for path, text in zip(files, (program, library, report)):
            path.unlink(missing_ok=True)
            if text:
                path.write_text("".join(f"                 U {name}\n" for name in text.split())
                                if path.suffix != ".axioms" else text)
        with mock.patch.object(axioms, "ran", lambda words: words[-1].read_text()):
            return list(axioms.faults(page, self.top, axioms.Built(*files)))

    def test_what_the_compiler_said(self):
        self.assertEqual(axioms.reached_of(self.SAID), {"libc::heap::take", "libc::read"})
        self.assertEqual(libraries.report_of(f"fn a: proved\n{self.SAID}"),
                         self.SAID.replace("logic=proved functions=1\n", ""))
        with self.assertRaisesRegex(proof.Refused, "list-axioms"):
            axioms.reached_of("logic=proved functions=1\n")

    def test_what_the_kit_declares(self):
        self.assertEqual(axioms.declared(self.top), {"read", "write", "pipe2", "take", "arg", "open"})

    def test_the_list_is_read_back(self):
        self.assertEqual(axioms.listed(self.PAGE), self.LIST)
        self.assertIn("| `libc` | `pipe2`, **`read`** |  |\n| `libc::heap` | **`take`** | `take` |\n"
                      "| `os::c` | **`open`** |  |\n", self.PAGE)
        self.assertEqual(axioms.rewritten(self.PAGE, self.LIST, 6), self.PAGE)
        with self.assertRaisesRegex(proof.Refused, "no list"):
            axioms.listed("# Proved\n\n## Next\n")

    def test_a_right_list(self):
        self.assertEqual(self.faults(), [])
        self.assertEqual(self.faults(program="", library=""), [])
        self.assertEqual(self.faults(report=self.SAID.replace("read   reached", "read")), [])

    def test_what_is_missing_in_the_list(self):
        self.assertEqual(self.faults(program="take read open write"),
                         ["the program asks for write, which isn't listed for it"])
        self.assertEqual(self.faults(program="take read pipe2"),
                         ["the program asks for others: libc::pipe2 os::c::open"])
        self.assertEqual(self.faults(library="take read"), ["the library asks for read, which isn't listed for it"])
        self.assertEqual(self.faults(report=self.SAID), ["the library's proof rests on other contracts: libc::read"])

    def test_what_nobody_declares(self):
        wrong = self.LIST._replace(program=self.LIST.program | {"os::c::close"})
        self.assertEqual(self.faults(axioms.rewritten(self.PAGE, wrong, 6)),
                         ["os::c::close is listed, and the kit declares no such function"])
        self.assertEqual(len(self.faults(axioms.rewritten(self.PAGE, self.LIST, 7))), 1)


class Archives(unittest.TestCase):
    def tree(self):
        tree = trees.Tree()
        tree.add("bin/it", "#!/bin/sh\n", 0o755)
        tree.add("share/doc/text", b"text\n")
        tree.add_packed("share/doc/more.gz", "more\n")
        tree.link("lib/it", "../bin/it")
        return tree

    def test_a_tarball(self):
        made = trees.tarball(self.tree(), "it-1", 1_000_000_000)
        self.assertEqual(made, trees.tarball(self.tree(), "it-1", 1_000_000_000))
        self.assertNotEqual(made, trees.tarball(self.tree(), "it-1", 1_000_000_001))
        with tempfile.TemporaryFile() as file:
            file.write(made)
            file.seek(0)
            with tarfile.open(fileobj=file) as tar:
                modes = {it.name: (it.mode, it.mtime, it.uid) for it in tar}
        self.assertEqual(sorted(modes), ["it-1", "it-1/bin", "it-1/bin/it", "it-1/lib", "it-1/lib/it", "it-1/share",
                                         "it-1/share/doc", "it-1/share/doc/more.gz", "it-1/share/doc/text"])
        self.assertEqual(modes["it-1/bin/it"], (0o755, 1_000_000_000, 0))

    @unittest.skipUnless(shutil.which("dpkg-deb"), "dpkg-deb isn't here")
    def test_a_package(self):
        parts = packages.Parts("1.2.3", 0, TOP / "release", {})
        fields = packages.control("it", "misc", parts, "short\nlong text", Multi_Arch="same")
        with tempfile.TemporaryDirectory() as room:
            made = [pathlib.Path(room, name) for name in ("a.deb", "b.deb")]
            for path in made:
                scripts = {"triggers": "x\n", "prerm": packages.CLEANING}
                trees.debian_package(self.tree(), fields, scripts, path, 1_000_000_000)
            self.assertEqual(made[0].read_bytes(), made[1].read_bytes())
            said = subprocess.run(["dpkg-deb", "-f", made[0]], capture_output=True, text=True, check=True).stdout
            listed = subprocess.run(["dpkg-deb", "-c", made[0]], capture_output=True, text=True, check=True).stdout
            subprocess.run(["dpkg-deb", "-e", made[0], f"{room}/control"], check=True)
            modes = [path.stat().st_mode & 0o777 for path in map(pathlib.Path(room, "control").joinpath, scripts)]
        self.assertEqual(modes, [0o644, 0o755])
        self.assertIn("Package: it\nSource: surfbasis\nVersion: 1.2.3\nArchitecture: amd64\n", said)
        self.assertIn("Multi-Arch: same\n", said)
        self.assertTrue(said.endswith("Description: short\n long text\n"))
        self.assertRegex(listed, r"-rwxr-xr-x root/root .* 2001-09-09 .* \./bin/it\n")


class Contents(unittest.TestCase):
    def test_links_of_documents_lead_on(self):
        with tempfile.TemporaryDirectory() as room:
            built = pathlib.Path(room, "built")
            built.mkdir()
            for name in ("surf", "surf-static", "libsurf.a", "libsurf.so.0"):
                (built / name).touch()
            texts = {name: "" for name in ("surf.1", "surf.bash", "_surf", "surf.fish")}
            tree = packages.tarball_tree(packages.Parts("1.2.3", 0, built, texts))
            root = pathlib.Path(room, "root")
            trees.write_tree(tree, root, 0)
            documents = [path.relative_to(root) for path in sorted(root.rglob("*.md"))]
            documents.remove(pathlib.Path("INSTALL.md"))
            for path in documents:
                text = (root / path).read_text()
                lost = [check_sessions.dead_links(place / path, text) for place in (root, TOP)]
                self.assertEqual(*lost, path)
        self.assertGreater(len(documents), 10)

    def test_tools_with_what_they_import(self):
        names = {path.name for path in packages.tools_with(["users.show"])}
        self.assertLessEqual({"show.py", "off.py", "template.py", "__main__.py"}, names)
        self.assertNotIn("hostile.py", names)

    def test_lines_to_install(self):
        text = "```sh\na\nb  # zsh, too\n```\n```text\nc\n```\n```sh\nd # bash\n```\n"
        self.assertEqual(fresh.install_lines(text), "a\nd # bash")


class Versions(unittest.TestCase):
    def program(self, room, version):
        path = pathlib.Path(room, "surf")
        path.write_text(f"#!/bin/sh\necho '{version}'\n")
        path.chmod(0o755)
        return path

    def test_one_version(self):
        with tempfile.TemporaryDirectory() as room:
            changes = "# Changes\n\n## 1.2.3\n\n## 1.2.2\n"
            self.assertEqual(versions.agreed(self.program(room, "surf 1.2.3"), changes), "1.2.3")
            with self.assertRaises(proof.Refused):
                versions.agreed(self.program(room, "surf 1.2.3"), "# Changes\n\n## Not yet released\n\n## 1.2.3\n")
            with self.assertRaises(ValueError):
                versions.agreed(self.program(room, "surf, a browser"), "## 1.2.3\n")

    def test_changes_since_a_release(self):
        with tempfile.TemporaryDirectory() as room:
            program, changes = self.program(room, "surf 1.2.3"), "# Changes\n\n## Next\n\n- More.\n\n## 1.2.3\n"
            self.assertEqual(versions.told(program, changes), "the version is 1.2.3, and Next has changes since")
            self.assertEqual(versions.told(program, "## 1.2.3\n"), "the version is 1.2.3")
            with self.assertRaises(proof.Refused):
                versions.agreed(program, changes)
            for wrong in (changes.replace("1.2.3", "1.2.2"), "## Next\n", "## Later\n\n## 1.2.3\n"):
                with self.assertRaises(proof.Refused, msg=wrong):
                    versions.told(program, wrong)


if __name__ == "__main__":
    unittest.main()
