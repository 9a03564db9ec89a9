"""The wheel holds a library for one platform and no code for one Python, so its tag is py3-none and that platform."""

import os

from setuptools import Distribution, setup
from wheel.bdist_wheel import bdist_wheel


class WithLibrary(Distribution):
    """What isn't the same on all platforms."""

    def has_ext_modules(self):
        return True


class Tagged(bdist_wheel):
    """A wheel whose tag `make_wheel.py` tells."""

    def get_tag(self):
        return "py3", "none", os.environ.get("SURFBASIS_PLATFORM") or super().get_tag()[2]


setup(distclass=WithLibrary, cmdclass={"bdist_wheel": Tagged})
