"""Types that a checker takes, docstrings in NumPy's form, and the reference that is made of them."""

import inspect
import os
import re
import shutil
import subprocess
import sys

import pytest

import blocktri
import blocktri.csgraph

PACKAGE = os.path.dirname(os.path.dirname(os.path.abspath(__file__)))
FUNCTIONS = [getattr(blocktri, name) for name in blocktri.__all__ if inspect.isfunction(getattr(blocktri, name))]
FUNCTIONS += [getattr(blocktri.csgraph, name) for name in blocktri.csgraph.__all__]
CLASSES = [getattr(blocktri, name) for name in blocktri.__all__ if inspect.isclass(getattr(blocktri, name))]
METHODS = [(it, name) for it in CLASSES for name, method in vars(it).items() if inspect.isfunction(method) and name[0] != "_"]


@pytest.mark.skipif(shutil.which("mypy") is None, reason="there is no mypy")
@pytest.mark.parametrize("what", ["blocktri", "tests/typed.py"])
def test_types(what, tmp_path):
    command = ["mypy", "--strict", "--cache-dir", str(tmp_path), *(["--package"] if what == "blocktri" else []), what]
    done = subprocess.run(command, cwd=PACKAGE, capture_output=True, text=True)
    assert done.returncode == 0, done.stdout


def sections(docstring):
    return re.findall(r"(?m)^([A-Z][A-Za-z ]+)\n-{3,}$", inspect.cleandoc(docstring))


@pytest.mark.parametrize("function", FUNCTIONS, ids=lambda it: f"{it.__module__}.{it.__name__}")
def test_functions_have_all_sections(function):
    found = sections(function.__doc__)
    assert found == [name for name in ("Parameters", "Returns", "Raises", "See Also", "Notes", "References", "Examples")
                     if name in found]
    assert {"Parameters", "Returns", "Raises", "References", "Examples"} <= set(found)


@pytest.mark.parametrize("cls", CLASSES, ids=lambda it: it.__name__)
def test_classes_name_their_attributes(cls):
    assert {"Attributes", "Parameters"} & set(sections(cls.__doc__))
    fields = [name for name in getattr(cls, "_fields", getattr(cls, "__dataclass_fields__", ())) if name[0] != "_"]
    for name in fields:
        assert re.search(rf"(?m)^ *(\w+, )*{name}(, \w+)* : ", cls.__doc__), name


@pytest.mark.parametrize("cls, name", METHODS, ids=lambda it: getattr(it, "__name__", it))
def test_methods_name_what_they_take_and_return(cls, name):
    method = getattr(cls, name)
    found = sections(method.__doc__)
    assert "Returns" in found
    assert ("Parameters" in found) == (len(inspect.signature(method).parameters) > 1)


def test_docstrings_are_numpydocs():
    validate = pytest.importorskip("numpydoc.validate").validate
    wrong = {"GL01", "GL02", "SA01", "SA04", "ES01", "EX01", "PR06", "RT03", "YD01", "GL08"}  # matters of taste, and of Attributes
    names = [f"{it.__module__ if it.__module__.endswith('csgraph') else 'blocktri'}.{it.__name__}" for it in FUNCTIONS]
    for name in names + [f"blocktri.{cls.__name__}.{method}" for cls, method in METHODS]:
        assert [error for error in validate(name)["errors"] if error[0] not in wrong] == [], name


@pytest.mark.skipif(shutil.which("make") is None, reason="there is no make")
def test_the_reference_has_every_public_name(tmp_path):
    pytest.importorskip("sphinx")
    pytest.importorskip("numpydoc")
    folder = tmp_path / "python"
    shutil.copytree(PACKAGE, folder, ignore=shutil.ignore_patterns("__pycache__", "tests", "build", "dist", "html", "generated", "*.egg-info"))
    done = subprocess.run(["make", "-C", str(folder), "docs", f"PYTHON={sys.executable}"], capture_output=True, text=True)
    assert done.returncode == 0 and "warning" not in (done.stdout + done.stderr).lower(), done.stdout + done.stderr
    names = [f"blocktri.{name}" for name in blocktri.__all__] + [f"blocktri.csgraph.{name}" for name in blocktri.csgraph.__all__]
    names += [f"blocktri.{cls.__name__}.{name}" for cls, name in METHODS]
    text = "".join(path.read_text() for path in (folder / "docs" / "html").rglob("*.html"))
    assert [name for name in names if f'id="{name}"' not in text and f'id="module-{name}"' not in text] == []
