"""Builds the library in the package from its C, with the compiler of this system. It calls nothing of Python, so a
wheel of it fits each Python 3 of this platform."""

import os

from setuptools import Extension, setup
from setuptools.command.build_ext import build_ext
from wheel.bdist_wheel import bdist_wheel


class Library(build_ext):
    """A shared library with one name for ctypes, in place of a module of Python."""

    def get_ext_filename(self, fullname):
        return os.path.join(*fullname.split(".")) + ".so"  # as _library.FROM_C has it on all systems

    def get_export_symbols(self, ext):
        return ["surf_call"]


class Tagged(bdist_wheel):
    """A wheel for this platform and any Python 3."""

    def get_tag(self):
        return "py3", "none", super().get_tag()[2]


flags = [] if os.name == "nt" else ["-O1", "-g0", "-std=c99"]
library = Extension("surfbasis.libsurf-c", ["c/surfbasis.c"], depends=["c/surf.h"], extra_compile_args=flags)
setup(ext_modules=[library], cmdclass={"build_ext": Library, "bdist_wheel": Tagged})
