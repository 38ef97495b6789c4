"""Wheels, source archives, and what pip makes of them without a network."""

import glob
import os
import re
import shutil
import subprocess
import sys
import tarfile
import zipfile

import pytest

import blocktri
from blocktri import _library

PACKAGE = os.path.dirname(os.path.dirname(os.path.abspath(__file__)))
TOP = os.path.dirname(os.path.dirname(PACKAGE))
FILE = _library._load()._name
GENERATED = shutil.ignore_patterns("libblocktri.so", "__pycache__", ".*_cache", "build", "dist", "*.egg-info", "html", "generated")
BUILDS = ("setuptools", "wheel", "pip", "venv")

pytestmark = [
    pytest.mark.skipif(not os.path.exists(FILE), reason="the library lies where only the loader finds it"),
    pytest.mark.skipif(
        subprocess.run([sys.executable, "-c", f"import {', '.join(BUILDS)}, ensurepip"], capture_output=True).returncode != 0,
        reason=f"some of {', '.join(BUILDS)} are not installed"),
    pytest.mark.skipif(shutil.which("readelf") is None, reason="there is no readelf"),
]


def run(*command, **environment):
    """What a command prints; it has to end well."""
    known = {name: value for name, value in os.environ.items() if name not in ("BLOCKTRI_LIBRARY", "PYTHONPATH")}
    done = subprocess.run(command, env=known | environment, cwd=os.sep, capture_output=True, text=True)
    assert done.returncode == 0, done.stdout + done.stderr
    return done.stdout


def refused(*command, **environment):
    """What a command says is wrong; it has to fail."""
    known = {name: value for name, value in os.environ.items() if name not in ("BLOCKTRI_LIBRARY", "PYTHONPATH")}
    done = subprocess.run(command, env=known | environment, cwd=os.sep, capture_output=True, text=True)
    assert done.returncode != 0
    return done.stdout + done.stderr


def building(folder, to):
    how = ("--quiet", "--no-build-isolation", "--no-index", "--no-deps")
    return sys.executable, "-m", "pip", "wheel", *how, "--wheel-dir", str(to), str(folder)


@pytest.fixture(scope="module")
def sources(tmp_path_factory):
    """The package as it stands in a fresh checkout, where nothing was built."""
    folder = tmp_path_factory.mktemp("checkout") / "library" / "python"
    shutil.copytree(PACKAGE, folder, ignore=GENERATED)
    return folder


@pytest.fixture(scope="module")
def wheel(sources, tmp_path_factory):
    folder = tmp_path_factory.mktemp("wheel")
    run(*building(sources, folder), BLOCKTRI_LIBRARY=FILE)
    (found,) = folder.iterdir()
    return found


@pytest.fixture(scope="module")
def archive(sources, tmp_path_factory):
    """A source archive, unpacked."""
    folder = tmp_path_factory.mktemp("archive")
    program = f"import os; os.chdir({str(sources)!r}); from setuptools import build_meta; build_meta.build_sdist({str(folder)!r})"
    run(sys.executable, "-c", program)
    (packed,) = folder.iterdir()
    assert packed.name == f"blocktri-{blocktri.__version__}.tar.gz"
    with tarfile.open(packed) as file:
        file.extractall(folder)
    return folder / packed.name.removesuffix(".tar.gz")


def contents(wheel):
    with zipfile.ZipFile(wheel) as file:
        return {name: file.read(name) for name in file.namelist() if not name.endswith("/RECORD")}


def test_a_wheel_has_all_that_is_wanted(wheel, sources):
    files = contents(wheel)
    modules = {name for name in os.listdir(os.path.join(PACKAGE, "blocktri")) if name.endswith((".py", ".typed"))}
    expected = {f"blocktri/{name}" for name in modules | {"libblocktri.so"}}
    assert {name for name in files if ".dist-info/" not in name} == expected
    with open(FILE, "rb") as file:
        assert files["blocktri/libblocktri.so"] == file.read()
    with open(os.path.join(TOP, "LICENSE"), "rb") as file:
        (licence,) = (content for name, content in files.items() if name.endswith(".dist-info/LICENSE"))
        assert licence == file.read()


def test_a_wheel_is_for_the_c_library_that_its_symbols_ask_for(wheel):
    words = run("readelf", "--wide", "--dyn-syms", FILE)
    newest = max((int(major), int(minor)) for major, minor in re.findall(r"@GLIBC_(\d+)\.(\d+)", words))
    assert newest >= (2, 5) and wheel.name == f"blocktri-{blocktri.__version__}-py3-none-manylinux_{newest[0]}_{newest[1]}_x86_64.whl"
    (metadata,) = (content.decode() for name, content in contents(wheel).items() if name.endswith(".dist-info/WHEEL"))
    assert "Root-Is-Purelib: false" in metadata and f"Tag: py3-none-manylinux_{newest[0]}_{newest[1]}_x86_64" in metadata
    assert re.findall(r"\(NEEDED\).*\[(.*)\]", run("readelf", "--wide", "--dynamic", FILE)) == ["libc.so.6"]


@pytest.fixture
def environment(tmp_path):
    """A fresh virtual environment that sees the NumPy and SciPy of this Python."""
    run(sys.executable, "-m", "venv", "--system-site-packages", str(tmp_path / "env"))
    return tmp_path / "env" / "bin"


USED = "import blocktri; print(blocktri.__file__, blocktri.csgraph.structural_rank(__import__('scipy.sparse').sparse.eye(3, format='csr')))"


def test_a_wheel_in_a_fresh_environment(wheel, environment):
    run(environment / "pip", "install", "--no-index", str(wheel))
    place, rank = run(environment / "python", "-c", USED).split()
    assert place.startswith(str(environment.parent)) and rank == "3"


def test_the_commands_of_the_guide(tmp_path):
    """Word by word, in a checkout whose shared library is built; only the folder of the environment is another."""
    built = os.path.join(TOP, "library", "build")
    if not os.path.exists(os.path.join(built, "libblocktri.so")):
        pytest.skip("library/build has no library")
    with open(os.path.join(TOP, "docs", "PYTHON.md")) as page:
        text = page.read().partition("\n## Install\n")[2].partition("\n## ")[0]
    commands = re.findall(r"(?m)^    (\S.*)$", text)
    assert len(commands) >= 5 and sum("make -C library" in command for command in commands) == 2
    shutil.copytree(os.path.join(TOP, "library"), tmp_path / "library", ignore=shutil.ignore_patterns("__pycache__", "dist", "tests"))
    old = tmp_path / "archive"  # older than what was built from it, so that make builds no other
    old.touch()
    os.utime(old, (0, 0))
    known = os.environ | {"ARCHIVE": str(old), "PYTHON": sys.executable, "PATH": f"{os.path.dirname(sys.executable)}:{os.environ['PATH']}"}
    printed = []
    for command in commands:
        here = command.replace("/tmp/", f"{tmp_path}/")
        done = subprocess.run(["sh", "-c", here], env=known, cwd=tmp_path, capture_output=True, text=True)
        assert done.returncode == 0, f"{command}: {done.stdout}{done.stderr}"
        printed += done.stdout.splitlines()
    assert "1.0.0 1" in printed


def test_a_build_without_the_library_says_how_to_make_it(sources, tmp_path):
    words = "the shared library of blocktri is missing"
    how = "Build it with `make -C library python` in a checkout of the repository"
    error = refused(*building(sources, tmp_path))
    assert words in error and how in error
    error = refused(*building(sources, tmp_path), BLOCKTRI_LIBRARY="/none.so")
    assert f"{words}: there is no file /none.so" in error and how in error
    assert not list(tmp_path.iterdir())


@pytest.mark.skipif(shutil.which("gcc") is None, reason="there is no gcc")
def test_a_build_with_another_library(sources, tmp_path):
    file = tmp_path / "other.so"
    for program, words in (("int blocktri_version(void) { return 2003004; }", "has the version 2.3.4, but the package has 1.0.0"),
                           ("int none;", "is no library of blocktri that runs here")):
        subprocess.run(["gcc", "-shared", "-fPIC", "-o", file, "-x", "c", "-"], input=program, text=True, check=True)
        assert f"{file} {words}" in refused(*building(sources, tmp_path / "wheels"), BLOCKTRI_LIBRARY=str(file))


def test_a_source_archive_makes_the_same_wheel(archive, wheel, tmp_path):
    files = {str(path.relative_to(archive)) for path in archive.rglob("*") if path.is_file()}
    assert {"setup.py", "pyproject.toml", "LICENSE", "README.rst", "tests/test_sums.py", "blocktri/py.typed"} <= files
    assert not any(name.endswith(".so") for name in files) and not (archive / "LICENSE").is_symlink()
    assert "the shared library of blocktri is missing" in refused(*building(archive, tmp_path))
    run(*building(archive, tmp_path), BLOCKTRI_LIBRARY=FILE)
    (again,) = glob.glob(f"{tmp_path}/*.whl")
    assert contents(again) == contents(wheel)


def test_an_editable_installation(environment, tmp_path):
    shutil.copytree(PACKAGE, tmp_path / "python", ignore=GENERATED)
    how = ("--no-index", "--no-build-isolation")
    run(environment / "pip", "install", *how, "--editable", str(tmp_path / "python"), BLOCKTRI_LIBRARY=FILE)
    place, rank = run(environment / "python", "-c", USED).split()
    assert place == str(tmp_path / "python" / "blocktri" / "__init__.py") and rank == "3"
