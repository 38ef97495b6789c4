"""Builds wheels that carry the shared library, under the tag of the C library that it needs. pyproject.toml has all else."""

import ctypes
import os
import platform
import re
import shutil
import subprocess

import setuptools
from setuptools.command.build_py import build_py
from setuptools.errors import SetupError

try:
    from setuptools.command.bdist_wheel import bdist_wheel
except ImportError:  # before version 70.1
    from wheel.bdist_wheel import bdist_wheel

HERE = os.path.dirname(os.path.abspath(__file__))
LIBRARY = "libblocktri.so"

# the oldest C library that tags of wheels can name, and what the platforms of these tags have besides
OLDEST = (2, 5)
EVERYWHERE = {"libc.so.6", "ld-linux-x86-64.so.2"}

HOW = (
    "Build it with `make -C library python` in a checkout of the repository, or name the file in the environment variable "
    "BLOCKTRI_LIBRARY."
)


def shared_library():
    """The file that BLOCKTRI_LIBRARY names, or else the one that `make -C library python` has built."""
    named = os.environ.get("BLOCKTRI_LIBRARY")
    for file in [named] if named else [os.path.join(HERE, "..", "build", LIBRARY), os.path.join(HERE, "blocktri", LIBRARY)]:
        if os.path.isfile(file):
            return os.path.realpath(file)
    raise SetupError(f"the shared library of blocktri is missing{f': there is no file {named}' if named else ''}. {HOW}")


def version_of(library):
    """The version that a library says it has."""
    try:
        number = ctypes.CDLL(library).blocktri_version()
    except (AttributeError, OSError) as error:
        raise SetupError(f"{library} is no library of blocktri that runs here: {error}. {HOW}") from error
    return f"{number // 1_000_000}.{number // 1000 % 1000}.{number % 1000}"


def read_elf(option, library):
    try:
        done = subprocess.run(["readelf", "--wide", option, library], capture_output=True, text=True, env=os.environ | {"LC_ALL": "C"})
    except FileNotFoundError as error:
        raise SetupError("readelf is missing, which says what C library the shared library needs: it is in binutils") from error
    if done.returncode != 0:
        raise SetupError(f"readelf cannot read {library}: {done.stderr.strip()}")
    return done.stdout


def platform_of(library):
    """The tag of the platforms on which a library runs, by the newest version of the C library that its symbols ask for."""
    needed = set(re.findall(r"\(NEEDED\).*\[(.*)\]", read_elf("--dynamic", library))) - EVERYWHERE
    if needed:
        raise SetupError(f"{library} needs libraries that not every Linux has: {', '.join(sorted(needed))}")
    versions = re.findall(r"Name: GLIBC_(\d+)\.(\d+)", read_elf("--version-info", library))
    newest = max([OLDEST, *[(int(major), int(minor)) for major, minor in versions]])
    return f"manylinux_{newest[0]}_{newest[1]}_{platform.machine()}"


class BuildWithLibrary(build_py):
    """Puts the shared library into the package."""

    def run(self):
        library, version = shared_library(), self.distribution.get_version()
        found = version_of(library)
        if found.split(".")[:2] != version.split(".")[:2]:
            raise SetupError(f"{library} has the version {found}, but the package has {version}. {HOW}")
        if not self.editable_mode:
            shutil.rmtree(self.build_lib, ignore_errors=True)
        super().run()
        to = os.path.join(HERE if self.editable_mode else self.build_lib, "blocktri", LIBRARY)
        if not os.path.exists(to) or not os.path.samefile(library, to):
            shutil.copyfile(library, to)


class PlatformWheel(bdist_wheel):
    """A wheel for each Python and one platform."""

    def get_tag(self):
        return "py3", "none", platform_of(shared_library())


class WithLibrary(setuptools.Distribution):
    """A distribution with a file that was compiled."""

    def has_ext_modules(self):
        return True


setuptools.setup(distclass=WithLibrary, cmdclass={"build_py": BuildWithLibrary, "bdist_wheel": PlatformWheel})
