"""Puts the shared object into the package that is built, where it is there; pyproject.toml has all else."""

import os
import pathlib
import shutil
import sys

from setuptools import Distribution, setup
from setuptools.command.build_py import build_py
from setuptools.command.sdist import sdist

try:
    from setuptools.command.bdist_wheel import bdist_wheel
except ImportError:
    from wheel.bdist_wheel import bdist_wheel

HERE = pathlib.Path(__file__).resolve().parent
NAME = "libconfluo.so.0"
# A source package has the library among its files.
PLACES = [
    pathlib.Path(os.environ.get("CONFLUO_LIBRARY", "")),
    HERE.parent / "out" / NAME,
    HERE / "confluo" / NAME,
]
LIBRARY = next((it for it in PLACES if it.is_file()), None)
if LIBRARY is None:
    print(
        f"confluo: there is no {NAME}, so the package has no library in it (make -C bindings archive)",
        file=sys.stderr,
    )


def put(folder):
    """Copies the library to the package in a folder."""
    place = pathlib.Path(folder) / "confluo" / NAME
    if LIBRARY is not None and place.resolve() != LIBRARY.resolve():
        place.parent.mkdir(parents=True, exist_ok=True)
        shutil.copyfile(LIBRARY, place)


class Build(build_py):
    def run(self):
        super().run()
        put(self.build_lib)


class Sources(sdist):
    def make_release_tree(self, base_dir, files):
        super().make_release_tree(base_dir, files)
        put(base_dir)


class Wheel(bdist_wheel):
    """A wheel for any Python 3: of the platform if it has the library, and else of any."""

    def get_tag(self):
        return ("py3", "none", super().get_tag()[2] if LIBRARY else "any")


class Package(Distribution):
    def has_ext_modules(self):
        return LIBRARY is not None


setup(distclass=Package, cmdclass={"build_py": Build, "sdist": Sources, "bdist_wheel": Wheel})
