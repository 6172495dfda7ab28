"""Brings libpocket.so along with the Python module: the one that the variable POCKET_LIBRARY names, or that which `make lib` makes."""

import os
import shutil
import subprocess

from setuptools import Distribution, setup
from setuptools.command.build_py import build_py
from wheel.bdist_wheel import bdist_wheel


class WithLibrary(build_py):
    """Places the library beside the module."""

    def run(self):
        super().run()
        library = os.environ.get("POCKET_LIBRARY")
        if not library:
            subprocess.run(["make", "lib"], check=True)
            library = "build/libpocket.so"
        shutil.copyfile(library, os.path.join(self.build_lib, "pocket", "libpocket.so"))


class OfProcessor(bdist_wheel):
    """A wheel of one processor, for each Python 3."""

    def get_tag(self):
        return "py3", "none", super().get_tag()[2]


class Binary(Distribution):
    def has_ext_modules(self):
        return True


setup(distclass=Binary, cmdclass={"build_py": WithLibrary, "bdist_wheel": OfProcessor})
