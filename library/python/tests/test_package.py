"""How the package finds its library, calls it, and does without SciPy."""

import ctypes
import doctest
import inspect
import os
import re
import shutil
import subprocess
import sys
import textwrap

import numpy
import pytest
import scipy.io

import blocktri
from blocktri import _library
from blocktri._entries import compressed

HERE = os.path.dirname(os.path.abspath(__file__))
PACKAGE = os.path.dirname(HERE)

LOADED = _library._load()
FILE = LOADED._name


def run(program, path=PACKAGE, **environment):
    """What a new interpreter prints, and the last line of what it says is wrong."""
    known = {"PYTHONPATH": path, "PATH": os.environ["PATH"]} | environment
    done = subprocess.run([sys.executable, "-c", textwrap.dedent(program)], env=known, cwd=os.sep, capture_output=True, text=True)
    return done.stdout, done.stderr.strip().rpartition("\n")[2]


def test_the_library_has_the_version_of_the_package():
    with open(os.path.join(PACKAGE, "..", "Makefile")) as file:
        numbers = dict(re.findall("^(VERSION|ABI) = (.*)$", file.read(), re.MULTILINE))
    assert numbers["VERSION"] == blocktri.__version__
    assert f'"libblocktri.so.{numbers["ABI"]}"' in inspect.getsource(_library._load)
    major, minor = _library._NEEDED
    assert numbers["VERSION"].startswith(f"{major}.{minor}.") and f"version {major}.{minor}," in _library._NEEDED_TEXT


def header():
    """The header without its comments."""
    with open(os.path.join(PACKAGE, "..", "blocktri.h")) as file:
        return re.sub(r"/\*.*?\*/", "", file.read(), flags=re.DOTALL)


@pytest.mark.parametrize("name", _library._CALLS)
def test_calls_take_what_the_header_declares(name):
    values = ["values"] if name in _library._WITH_VALUES else []
    expected = ["rows", "columns", "starts", "ids", "ids_length", *values, "flags", *_library._CALLS[name], "fault"]
    for width, index, ending in ((4, "int32_t", ""), (8, "int64_t", "_64")):
        arguments = re.search(rf"int32_t blocktri_{name}{ending}\((.*?)\);", header(), re.DOTALL)[1].split(",")
        assert [re.search(r"\w+$", argument)[0] for argument in arguments] == expected
        kinds = {index: getattr(ctypes, "c_" + index[:-2]), "uint32_t": ctypes.c_uint32}
        assert _library._FUNCTIONS[name, width].argtypes == [
            ctypes.c_void_p if "*" in argument else kinds[argument.split()[0]] for argument in arguments]


def test_structs_are_those_of_the_header():
    for name, struct in (("sizes", _library.Sizes), ("sum", _library.Sum)):
        declared = re.search(rf"struct blocktri_{name} {{(.*?)}}", header(), re.DOTALL)[1]
        members = re.findall(r"(\w+)_t (\w+)(?:\[(\d)\])?;", declared)
        kinds = [(member, getattr(ctypes, "c_" + kind), int(length or 0)) for kind, member, length in members]
        assert struct._fields_ == [(member, kind * length if length else kind) for member, kind, length in kinds]
    assert _library.Sizes().size == ctypes.sizeof(_library.Sizes)


def test_only_what_a_call_writes_can_be_asked_for():
    with pytest.raises(TypeError, match="blocktri_rank writes no size"):
        _library.call("rank", compressed([[1]]), size=numpy.empty(1, numpy.int32))


def test_a_status_that_the_package_does_not_know_has_the_librarys_words():
    with pytest.raises(RuntimeError, match="libblocktri answered with the status 25: an argument cannot be taken"):
        _library.call("rank", compressed([[1]]), _library.LEAST)


def test_a_library_that_is_not_there_or_not_right(tmp_path):
    _, error = run("import blocktri", BLOCKTRI_LIBRARY=str(tmp_path / "none.so"))
    assert error.startswith("ImportError: the shared library of blocktri can't be loaded: ") and "none.so" in error
    _, error = run("import blocktri", BLOCKTRI_LIBRARY="libc.so.6")
    assert error.startswith("ImportError: the shared library is older than this package, which needs version 1.0, or a later one of version 1: ")
    assert "blocktri_version" in error


@pytest.mark.skipif(shutil.which("gcc") is None, reason="there is no gcc")
def test_a_library_of_another_version(tmp_path):
    file = tmp_path / "of_another_version.so"
    needs = "needs version 1.0, or a later one of version 1"
    older = f"is older than this package, which {needs}: {file}: undefined symbol: blocktri_rank"
    for version, words in ((999_999, f"{file} has the version 0.999.999, but this package {needs}"),
                           (2_003_004, f"{file} has the version 2.3.4, but this package {needs}"), (1_000_000, older), (1_002_003, older)):
        command = ["gcc", "-shared", "-fPIC", "-o", file, "-x", "c", "-"]
        subprocess.run(command, input=f"int blocktri_version(void) {{ return {version}; }}", text=True, check=True)
        _, error = run("import blocktri", BLOCKTRI_LIBRARY=str(file))
        assert error.startswith("ImportError: the shared library ") and error.endswith(words)


@pytest.mark.skipif(not os.path.exists(FILE), reason="the library lies where only the loader finds it")
def test_the_systems_loader_finds_the_library(tmp_path):
    without = shutil.ignore_patterns("libblocktri.so", "__pycache__")
    shutil.copytree(os.path.join(PACKAGE, "blocktri"), tmp_path / "blocktri", ignore=without)
    (tmp_path / "folder").mkdir()
    shutil.copy(FILE, tmp_path / "folder" / "libblocktri.so.1")
    printed = run("import blocktri; print(blocktri.structural_rank([[1]]))", str(tmp_path), LD_LIBRARY_PATH=str(tmp_path / "folder"))
    assert printed == ("1\n", "")


def test_calls_let_go_of_the_interpreters_lock():
    assert isinstance(LOADED, ctypes.CDLL) and not isinstance(LOADED, ctypes.PyDLL)


def test_without_scipy():
    printed, error = run("""
        import sys, types
        sys.modules["scipy"] = None
        import blocktri
        for form in "csc", "csr":
            matrix = types.SimpleNamespace(format=form, shape=(2, 2), indptr=[0, 1, 2], indices=[1, 0])
            print(blocktri.structural_rank(matrix), blocktri.maximum_matching(matrix), len(blocktri.dmperm(matrix).blocks))
            matrix.data = [3, 4]
            print(blocktri.heaviest_diagonal(matrix).sum, blocktri.bottleneck_diagonal(matrix).least)
            print(blocktri.maximum_matching(matrix, least=True), blocktri.block_order(matrix).block_starts)
        try:
            blocktri.structural_rank([[1]])
        except TypeError as error:
            print(error)
    """, BLOCKTRI_LIBRARY=FILE)
    assert error == ""
    assert printed.splitlines() == ["2 [1 0] 2", "7 3", "[1 0] [0 1 2]"] * 2 + \
        ["without SciPy a matrix must be in one of the formats csc, csr"]


def test_what_the_pages_show(monkeypatch):
    monkeypatch.chdir(os.path.join(PACKAGE, "..", ".."))
    assert doctest.testfile(os.path.abspath("docs/PYTHON.md"), module_relative=False).failed == 0
    command = [sys.executable, "examples/block_form.py", "examples/process.mtx"]
    done = subprocess.run(command, env=os.environ | {"PYTHONPATH": PACKAGE}, capture_output=True, text=True)
    with open("docs/EXAMPLES.md") as page:
        assert done.stdout and textwrap.indent(done.stdout, "    ") in page.read()


def test_the_worked_case():
    """All that the page shows, but that another SciPy may count other entries in L and U."""
    top = os.path.join(PACKAGE, "..", "..")
    done = subprocess.run([sys.executable, "examples/worked_case.py"], env=os.environ | {"PYTHONPATH": PACKAGE}, cwd=top,
                          capture_output=True, text=True)
    assert done.returncode == 0, done.stderr
    counts = re.compile(r"\d+(?= entries in L and U)")
    with open(os.path.join(top, "docs", "PYTHON.md")) as page:
        shown = counts.sub("", page.read())
    assert counts.sub("", "".join(f"    {line}\n" for line in done.stdout.splitlines())) in shown
    flow_sheet, by_blocks, circuit, circuit_by_blocks = map(int, counts.findall(done.stdout))
    assert by_blocks < flow_sheet and 2 * circuit_by_blocks < circuit
    with open(os.path.join(top, "examples", "flow_sheet.svg")) as picture:
        matrix = scipy.io.mmread(os.path.join(top, "examples", "flow_sheet.mtx"))
        assert picture.read() == blocktri.dmperm(matrix).svg()


def test_what_the_readme_shows():
    assert doctest.testfile(os.path.join(PACKAGE, "README.rst"), module_relative=False).failed == 0


def test_the_drop_ins_come_with_the_package():
    printed = run("""
        import blocktri, sys
        print("scipy" in sys.modules, "csgraph" in dir(blocktri))
        print(blocktri.csgraph.structural_rank.__module__)
        try:
            blocktri.nothing
        except AttributeError as error:
            print(error)
    """, BLOCKTRI_LIBRARY=FILE)
    assert printed == ("False True\nblocktri.csgraph\nmodule 'blocktri' has no attribute 'nothing'\n", "")


def test_matplotlib_is_loaded_for_pictures_alone():
    assert run("import sys, blocktri; print('matplotlib' in sys.modules)", BLOCKTRI_LIBRARY=FILE) == ("False\n", "")
