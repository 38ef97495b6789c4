"""``python -m blocktri``, and the pictures and pages that it and notebooks show."""

import gzip
import os
import re
import subprocess
import sys
import xml.etree.ElementTree

import numpy
import pytest
import scipy.io
from scipy import sparse

import blocktri
from blocktri.__main__ import main
from matrices import drawn, pattern

PACKAGE = os.path.dirname(os.path.dirname(os.path.abspath(__file__)))
FLOW_SHEET = os.path.join(PACKAGE, "..", "..", "examples", "flow_sheet.mtx")


@pytest.fixture(params=[".mtx", ".mtx.gz", ".npz"])
def file(request, tmp_path):
    """The flow sheet in a file of each kind."""
    if request.param == ".mtx":
        return FLOW_SHEET
    path = tmp_path / f"flow{request.param}"
    if request.param == ".npz":
        sparse.save_npz(path, scipy.io.mmread(FLOW_SHEET))
    else:
        with open(FLOW_SHEET, "rb") as plain, gzip.open(path, "wb") as packed:
            packed.write(plain.read())
    return str(path)


def test_ranks(file, capsys):
    assert main(["rank", file]) == 0
    assert capsys.readouterr() == ("9\n", "")


def test_words(file, capsys, tmp_path):
    form = blocktri.dmperm(scipy.io.mmread(FLOW_SHEET))
    assert main(["explain", file]) == 0
    assert capsys.readouterr() == (form.explain() + "\n", "")
    rows, columns = [f"E{number}" for number in range(10)], [*"abcdefgh", "heat flow", "x"]
    (tmp_path / "rows").write_text("\n".join(rows) + "\n")
    (tmp_path / "columns").write_text("\n".join(columns))
    assert main(["explain", file, "--rows", str(tmp_path / "rows"), "--columns", str(tmp_path / "columns"), "--most", "3"]) == 0
    assert capsys.readouterr() == (form.explain(rows, columns, 3) + "\n", "")


def test_pictures(file, tmp_path):
    assert main(["spy", file, "-o", str(tmp_path / "form.svg")]) == 0
    assert (tmp_path / "form.svg").read_text() == blocktri.dmperm(scipy.io.mmread(FLOW_SHEET)).svg()


def test_files_that_cannot_be_read(capsys, tmp_path):
    (tmp_path / "bad.mtx").write_text("nothing\n")
    (tmp_path / "bad.npz").write_text("nothing\n")
    (tmp_path / "few").write_text("a\nb\n")
    for words, error in ((["rank", "none.mtx"], "none.mtx"), (["rank", str(tmp_path / "bad.mtx")], "bad.mtx: "),
                         (["rank", str(tmp_path / "bad.npz")], "bad.npz: "),
                         (["rank", "a.txt"], "a.txt: the name of a matrix must end in one of .mtx, .mtx.gz, .npz"),
                         (["explain", FLOW_SHEET, "--rows", str(tmp_path / "few")], "there are 2 names, one a line, but 10 are needed"),
                         (["explain", FLOW_SHEET, "--columns", str(tmp_path / "none")], "No such file"),
                         (["spy", FLOW_SHEET, "-o", str(tmp_path / "none" / "form.svg")], "No such file")):
        assert main(words) == 2
        printed, said = capsys.readouterr()
        assert printed == "" and said.startswith("blocktri: ") and error in said and said.count("\n") == 1


def test_the_module_runs():
    environment = os.environ | {"PYTHONPATH": PACKAGE}
    done = subprocess.run([sys.executable, "-m", "blocktri", "rank", FLOW_SHEET], env=environment, capture_output=True, text=True)
    assert (done.returncode, done.stdout, done.stderr) == (0, "9\n", "")
    done = subprocess.run([sys.executable, "-m", "blocktri"], env=environment, capture_output=True, text=True)
    assert done.returncode == 2 and "usage: python -m blocktri" in done.stderr


def parts(picture):
    """The boxes of each class, and the spots: row and column."""
    root, name = xml.etree.ElementTree.fromstring(picture), "{http://www.w3.org/2000/svg}"
    boxes = {}
    for box in root.iter(name + "rect"):
        boxes.setdefault(box.get("class"), []).append(tuple(float(box.get(it)) for it in ("x", "y", "width", "height")))
    spots = set()
    for path in root.iter(name + "path"):
        for left, top, length in re.findall(r"M(\d+) (\d+)\.5h(\d+)", path.get("d")):
            spots |= {(int(top), int(left) + at) for at in range(int(length))}
    return root, boxes, spots


def test_a_picture_of_a_small_matrix():
    random = numpy.random.default_rng(0)
    for _ in range(60):
        matrix = drawn(random)
        form = blocktri.dmperm(matrix)
        _, boxes, spots = parts(form.svg())
        assert spots == set(map(tuple, numpy.argwhere(pattern(matrix)[form.row_order][:, form.column_order])))
        assert [box[2] for box in boxes.get("block", ())] == form.blocks.sizes().tolist()
        for name in ("horizontal", "square", "vertical"):
            part = getattr(form, name)
            sizes = (len(part.columns), len(part.rows))
            assert [box[2:] for box in boxes.get(name, ())] == ([sizes] if any(sizes) else [])


def test_a_picture_of_a_million_entries_is_small():
    random = numpy.random.default_rng(1)
    size = 100_000
    places = random.integers(0, size, (2, 1_000_000))
    form = blocktri.dmperm(sparse.coo_matrix((numpy.ones(places.shape[1], bool), places), shape=(size, size + 7)))
    picture = form.svg()
    root, _, spots = parts(picture)
    assert len(picture) < 2_000_000
    assert max(map(float, root.get("viewBox").split())) <= 321
    assert spots and max(max(spot) for spot in spots) < 320


def test_results_in_a_notebook():
    matrix = sparse.csr_matrix([[1, 2], [0, 3]])
    assert "<td>2 x 2</td>" in blocktri.dmperm(matrix)._repr_html_()
    assert "<svg" in blocktri.dmperm(matrix)._repr_html_() and "Not singular" in blocktri.dmperm(matrix)._repr_html_()
    assert "<th>blocks</th><td>2</td>" in blocktri.block_order(matrix)._repr_html_()
    assert "<th>sum</th><td>4</td>" in blocktri.heaviest_diagonal(matrix)._repr_html_()
    assert "<th>least weight</th><td>1</td>" in blocktri.bottleneck_diagonal(matrix)._repr_html_()
    for shape in ((0, 0), (0, 3), (3, 0)):
        xml.etree.ElementTree.fromstring(blocktri.dmperm(sparse.csr_matrix(shape)).svg())
