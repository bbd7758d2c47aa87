"""The command tsumego-ask, as it is called."""
import json
import os
import re
import signal
import subprocess
import sys
import time
import xml.dom.minidom
from pathlib import Path
from typing import List

import data
import pytest

from tsumego.sgf import trees_of

ASK = Path(__file__).resolve().parents[2] / "tsumego-ask"


def ask(*words: str, text: str = "") -> "subprocess.CompletedProcess[str]":
    # (a busy machine needs its time)
    return subprocess.run([sys.executable, "-B", str(ASK), "--seconds", "40", *words], input=text, capture_output=True, text=True, check=False)


def shape(name: str) -> str:
    """A shape, with its name."""
    return next(row[3] for row in data.SHAPES if row[0] == name).replace("PL[", f"GN[{name}]PL[", 1)


THREE, TWO = shape("centre_straight_three_B"), shape("centre_two_W")


@pytest.fixture
def book(tmp_path: Path) -> Path:
    path = tmp_path / "book.sgf"
    path.write_text(THREE + TWO + "(;SZ[7]GN[broken]AB[aa];B[aa]TR[aa])" + shape("centre_bent_three_W"))
    return path


def test_a_problem_in_words(tmp_path: Path) -> None:
    path = tmp_path / "p3.sgf"
    path.write_text(data.CORNER)
    out = tmp_path / "out.sgf"
    ended = ask(str(path), "D18", "-o", str(out), "--html", str(tmp_path / "page.html"))
    assert (ended.returncode, ended.stderr) == (0, "")
    lines = ended.stdout.splitlines()
    assert lines[0] == f"{path}: Corner with a stone on the edge"
    assert "  Black begins and can kill White's group at D18, by A18, B18 or A17." in lines
    assert "  These fail: A19, B19, D19, E19 and A16 (White B18); C18 (White A18)." in lines
    assert "  As it is closed here, if White begins, White lives, by B18." in lines
    assert "  If Black begins, all 9 closings agree." in lines
    tree = trees_of(out.read_text())[0]
    assert len(tree.variations) == 9 and len({name for name, _ in tree.nodes[0].properties}) == len(tree.nodes[0].properties)


def test_a_book_as_json(book: Path, tmp_path: Path) -> None:
    out = tmp_path / "out.sgf"
    ended = ask(str(book), "--json", "-o", str(out))
    found = [json.loads(line) for line in ended.stdout.splitlines()]
    assert ended.returncode == 1
    assert [(each["problem"], each["verdict"]) for each in found] == [(1, "killed"), (2, "killed"), (3, "refused"), (4, "lives")]
    assert found[0]["winning"] == ["F9"] and found[0]["file"] == str(book) and found[0]["closings"] == []
    assert found[0]["failing"] == [{"turn": "E9", "refutation": "F9"}, {"turn": "G9", "refutation": "F9"}]
    assert found[2]["name"] == "broken" and found[2]["why"].startswith("node 2: ")
    assert len(trees_of(out.read_text())) == 4


def test_closings_as_json() -> None:
    found = json.loads(ask("-", "E18", "--json", text=data.FIVE).stdout)
    assert (found["verdict"], found["winning"]) == ("killed", ["B19", "E19"])
    assert {"stones": ["E19"], "verdict": "killed", "if_other_begins": "killed"} in found["closings"]


def test_a_terminal_shows_the_verdict_before_the_answer(tmp_path: Path) -> None:
    (tmp_path / "p1.sgf").write_text(THREE)
    terminal, errors = os.openpty()
    words = [sys.executable, "-B", str(ASK), "--seconds", "40", "p1.sgf"]
    with subprocess.Popen(words, cwd=tmp_path, stdout=subprocess.PIPE, stderr=errors) as asking:
        os.close(errors)
        assert asking.stdout and b"These fail: " in asking.stdout.read()
    said = os.read(terminal, 65536).decode().split("\r\033[K")
    os.close(terminal)
    assert asking.returncode == 0
    assert said[:2] == ["", "p1.sgf ..."] and said[-1] == ""
    assert re.match(r"Black begins and can kill White's group at \w+, by F9\. \(p1\.sgf", said[2])


def test_standard_input() -> None:
    for words in (["-"], []):
        ended = ask(*words, text=TWO)
        assert ended.returncode == 0 and ended.stdout.startswith("standard input: centre_two_W\n")


def test_refusals_name_file_problem_and_fault(book: Path) -> None:
    ended = ask(str(book))
    at = ended.stdout.splitlines().index(f"{book}, problem 3: broken")
    assert ended.stdout.splitlines()[at + 1] == "  Refused: node 2: the move is on a point where a stone stands; look at A7."


def test_a_file_that_breaks_off(tmp_path: Path) -> None:
    path = tmp_path / "cut.sgf"
    path.write_text(TWO + "\n\n\n(;SZ[9]AB[aa]")
    ended = ask(str(path))
    assert ended.returncode == 1
    assert f"{path}, problem 1: centre_two_W" in ended.stdout
    assert "Refused: line 4: the tree that begins in line 4 isn't closed." in ended.stdout


@pytest.mark.parametrize("word", ["--help", "--version"])
def test_help_and_version(word: str) -> None:
    ended = ask(word)
    assert ended.returncode == 0 and ended.stdout.split()[0] in ("usage:", "tsumego-ask") and ended.stderr == ""


@pytest.mark.parametrize(
    "words, said",
    [
        (["--jsno", "-"], "is --json meant?"),
        (["nothing.sgf"], "there is no file nothing.sgf"),
        (["I18"], "I18 is no file and no point: a point is written as C18 (there is no column I), or as cb"),
        (["-", "C18", "D18"], "several stones are named"),
        (["-", "--seconds", "0"], "--seconds"),
        (["C18"], "no FILE is named"),
        ([os.path.dirname(__file__)], "Is a directory"),
    ],
)
def test_words_that_are_refused(words: List[str], said: str) -> None:
    ended = ask(*words)
    assert ended.returncode == 2 and said in ended.stderr and ended.stdout == ""


def test_an_input_is_never_overwritten(book: Path) -> None:
    before = book.read_text()
    ended = ask(str(book), "-o", str(book))
    assert ended.returncode == 2 and "name another one" in ended.stderr and book.read_text() == before


def test_one_file_for_both_is_refused(book: Path, tmp_path: Path) -> None:
    ended = ask(str(book), "-o", str(tmp_path / "x"), "--html", str(tmp_path / "x"))
    assert ended.returncode == 2 and "at once" in ended.stderr and not (tmp_path / "x").exists()


def test_a_program_that_is_missing() -> None:
    ended = subprocess.run([sys.executable, str(ASK), "-"], input=data.TRIPOD, capture_output=True, text=True, check=False, env={**os.environ, "TSUMEGO": "/nowhere"})
    assert ended.returncode == 2 and "there is no program /nowhere" in ended.stderr


def test_a_page(book: Path, tmp_path: Path) -> None:
    out = tmp_path / "page.html"
    ask(str(book), "--html", str(out))
    page = out.read_text()
    assert page.count("<section") == 4 and page.count("<svg") == 6 and page.count("class=fault") == 1
    for picture in re.findall("<svg.*?</svg>", page):
        xml.dom.minidom.parseString(picture)
    assert "http" not in page.replace("http://www.w3.org/2000/svg", "")


def _heed_ctrl_c() -> None:
    """A shell has its jobs in the background ignore Ctrl-C; what they start ignores it too, unless it is told."""
    signal.signal(signal.SIGINT, signal.SIG_DFL)


def test_ctrl_c_leaves_what_is_done(tmp_path: Path) -> None:
    path, out = tmp_path / "book.sgf", tmp_path / "out.sgf"
    path.write_text(THREE + data.OPEN)
    words = [sys.executable, "-B", str(ASK), "--seconds", "100", str(path), "-o", str(out)]
    with subprocess.Popen(words, stdout=subprocess.PIPE, stderr=subprocess.PIPE, text=True, preexec_fn=_heed_ctrl_c) as process:
        assert process.stdout and process.stdout.readline() == f"{path}, problem 1: centre_straight_three_B\n"
        while not out.stat().st_size:
            time.sleep(0.1)
        process.send_signal(signal.SIGINT)
        begun = time.monotonic()
        _, errors = process.communicate(timeout=60)
        assert (process.returncode, errors) == (130, "tsumego-ask: stopped; what was written until now stays\n")
        assert time.monotonic() - begun < 20
    assert len(trees_of(out.read_text())) == 1
