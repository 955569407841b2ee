"""Puts the shared library into the package: that of PREFIX/lib if the variable SLOTROUTE_PREFIX
names PREFIX, or else that of ../prebuilt. If there is neither, the package has none, and
`Library()` takes the one that the system's loader finds. A relative PREFIX counts from the folder
where pip was called, as PWD has it.

With the library and its header it builds the module _turn, too. If that fails, as without a
compiler or without Python's headers, the package does without it.
"""

import os
import shutil
from pathlib import Path
from runpy import run_path

from setuptools import Extension, setup
from setuptools.command.build_py import build_py
from setuptools.dist import Distribution

try:
    from setuptools.command.bdist_wheel import bdist_wheel
except ImportError:  # before setuptools 70.1
    from wheel.bdist_wheel import bdist_wheel

HERE = Path(__file__).resolve().parent
NAME = run_path(str(HERE / "slotroute" / "_shared.py"))["NAME"]


def shared_library():
    """The shared library to put into the package, or None."""
    prefix = os.environ.get("SLOTROUTE_PREFIX")
    own = HERE.parent / "prebuilt" / "x86_64-linux"
    library = Path(os.environ.get("PWD", ""), prefix or own, "lib", NAME)
    if library.exists():
        return library
    if prefix:
        raise SystemExit(f"no lib/{NAME} in SLOTROUTE_PREFIX={prefix}")
    return None


def turn(library):
    """The module _turn, which goes with any library of the same header."""
    return Extension(
        "slotroute._turn",
        ["slotroute/_turn.c", "slotroute/_values.c"],
        depends=["slotroute/_values.h"],
        include_dirs=[str(library.parent.parent / "include")],
        define_macros=[("Py_LIMITED_API", "0x030a0000")],
        extra_compile_args=["-std=c11", "-g0"],
        extra_link_args=["-s"],
        py_limited_api=True,
        optional=True,
    )


class WithLibrary(build_py):
    def run(self):
        super().run()
        if LIBRARY:
            shutil.copy(LIBRARY, Path(self.build_lib, "slotroute", NAME))


class ForLinux(Distribution):
    def has_ext_modules(self):
        return LIBRARY is not None


class AnyPython(bdist_wheel):
    """A wheel with a library is for Linux on x86-64. It is for each version of Python from 3.10."""

    def get_tag(self):
        if not LIBRARY:
            return ("py3", "none", "any")
        is_built = any(Path(self.bdist_dir, "slotroute").glob("_turn.*so"))
        return (*(("cp310", "abi3") if is_built else ("py3", "none")), "manylinux_2_17_x86_64")


LIBRARY = shared_library()
setup(
    license="BSD-3-Clause",
    distclass=ForLinux,
    ext_modules=[turn(LIBRARY)] if LIBRARY else [],
    cmdclass={"build_py": WithLibrary, "bdist_wheel": AnyPython},
)
