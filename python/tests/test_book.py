"""The command tsumego-book: a book with planted errors."""
import fcntl
import json
import os
import signal
import subprocess
import sys
import time
from pathlib import Path
from typing import Dict

import data
import pytest

from tsumego.sgf import trees_of

BOOK = Path(__file__).resolve().parents[2] / "tsumego-book"
TEXTS: Dict[str, str] = {name: text for name, _, _, text in data.SHAPES}
# Vital points that books name: the middle of three in a row, the corner of a bent three, White to live and Black to kill.
THREE, BENT = "fe", "ee"


def problem(shape: str, name: str, solution: str) -> str:
    text = TEXTS[shape]
    return text.replace("PL[", f"GN[{name}]PL[", 1)[:-1] + solution + ")\n"


def without(text: str, stone: str) -> str:
    assert f"[{stone}]" in text
    return text.replace(f"[{stone}]", "", 1)


@pytest.fixture
def book(tmp_path: Path) -> Path:
    path = tmp_path / "book.sgf"
    path.write_text(
        problem("centre_straight_three_B", "one", f";B[{THREE}]C[Correct.]")
        + problem("centre_straight_three_W", "two", f"(;W[ee]C[Wrong.];B[{THREE}])(;W[{THREE}])")
        + problem("centre_bent_three_B", "the wrong move", ";B[fe]C[Correct.]")
        + problem("centre_bent_three_W", "the wrong side", f";B[{BENT}]")
        + problem("centre_straight_three_B", "a line called wrong", f"(;B[{THREE}]C[Wrong.])(;B[ee]C[Correct.])")
        + problem("centre_straight_three_W", "Is it alive?", "")
        + problem("centre_straight_three_B", "no solution given", "")
        + problem("centre_bent_four_W", "needs no move", "")
    )
    return path


def run(*words: str, **more: Dict[str, str]) -> "subprocess.CompletedProcess[str]":
    return subprocess.run([sys.executable, "-B", str(BOOK), "--seconds", "40", *words], capture_output=True, text=True, check=False, **more)


def test_planted_errors_are_told_and_nothing_else(book: Path, tmp_path: Path) -> None:
    out = tmp_path / "out"
    ended = run(str(out), str(book))
    assert (ended.returncode, ended.stderr) == (1, "")
    rows = [json.loads(line) for line in (out / "report.json").read_text().splitlines()]
    assert [row["name"] for row in rows if row["faults"]] == ["the wrong move", "the wrong side", "a line called wrong", "needs no move"]
    told = {row["name"]: row["faults"] for row in rows}
    assert told["the wrong move"][0] == "the right line F9 fails, for it loses to E9"
    assert told["the wrong side"] == ["the solution begins with Black, but White is to move"]
    assert told["a line called wrong"] == ["the line F9 is called wrong, but Black still wins", "the right line E9 fails, for it loses to F9"]
    assert told["needs no move"] == ["no move is needed: the group lives as it stands"]
    page = (out / "report.html").read_text()
    assert page.count("class=fault") == 4 and page.rindex("class=fault") < page.index(f"{book}, problem 1: one")
    table = [line.split("\t") for line in (out / "report.tsv").read_text().splitlines()]
    assert len(table) == 9 and {len(row) for row in table} == {11} and table[1][2:5] == ["one", "killed", "F9"] and [row[8] for row in table[:2]] == ["ko", "no"]
    marked = trees_of((out / "marked.sgf").read_text())
    assert len(marked) == 8 and all(tree.nodes[0].has("TR") and tree.nodes[0].has("SQ") for tree in marked)
    assert marked[1].variations[0].nodes[0].first("C") == "Wrong."


def test_a_book_of_sixty_with_five_errors(tmp_path: Path) -> None:
    vital = [("centre_straight_three_B", "B", THREE), ("centre_straight_three_W", "W", THREE), ("centre_bent_three_B", "B", BENT), ("centre_bent_three_W", "W", BENT)]
    words = ("C[Correct.]", "TE[1]", "C[RIGHT]")
    problems = [problem(name, f"{name}: is it alive?", "") for name in TEXTS]
    problems += [problem(name, f"{name} {word}"[:-1].replace("[", " "), f";{colour}[{point}]{word}") for word in words for name, colour, point in vital][:11]
    closed = data.CORNER.replace("AB[eb]", "AB[fa][ae][eb]", 1).strip()[:-1]
    planted = {
        9: ("an open wall", without(problem("side_straight_three_B", "an open wall: is it alive?", ""), "ia")),
        19: ("a second solution", closed.replace("GN[Corner with a stone on the edge]", "GN[a second solution]") + ";B[bb]C[Correct.])\n"),
        48: ("the wrong side", problem("centre_bent_three_W", "the wrong side", f";B[{BENT}]C[Correct.]")),
        59: ("a wrong move", problem("centre_bent_three_B", "a wrong move", f";B[{THREE}]C[Correct.]")),
        # (a stone that is missing, and changes nothing, can't be seen)
        24: ("", without(problem("centre_straight_three_B", "a missing stone", f";B[{THREE}]C[Correct.]"), "cc")),
    }
    for at in sorted(planted):
        problems.insert(at - 1, planted[at][1])
    path, out = tmp_path / "book.sgf", tmp_path / "out"
    path.write_text("".join(problems))
    ended = run(str(out), str(path))
    told = ended.stdout.splitlines()
    assert told[-1] == f"60 problems, 4 to look at: {out}/report.html" and len(told) == 5
    assert [line.partition(", problem ")[2].partition(":")[0] for line in told[:4]] == ["9", "19", "48", "59"]
    assert "the wall is open: is a stone missing at " in told[0] and "A18 and A17 win" in told[1] and "begins with Black, but White is to move" in told[2]
    assert "the right line F9 fails, for it loses to E9" in told[3]
    page = (out / "report.html").read_text()
    first = [part.partition("</h2>")[0] for part in page.split("<h2>")[1:6]]
    assert [name.rpartition("problem ")[2] for name in first[:4]] == [f"{at}: {planted[at][1].partition('GN[')[2].partition(']')[0]}" for at in (9, 19, 48, 59)]
    assert page.count("class=fault") == 4 and page.count("<section") == 60


def test_a_further_run_asks_only_what_is_new(book: Path, tmp_path: Path) -> None:
    out = tmp_path / "out"
    run(str(out), str(book))
    before = (out / "answers.json").read_text()
    assert run(str(out), str(book)).returncode == 1 and (out / "answers.json").read_text() == before
    book.write_text(book.read_text() + problem("centre_two_B", "new", ";B[ee]"))
    run(str(out), str(book))
    assert (out / "answers.json").read_text().count("\n") == before.count("\n") + 1
    assert len((out / "report.json").read_text().splitlines()) == 9


def test_changes_are_told(tmp_path: Path) -> None:
    path, out = tmp_path / "book.sgf", str(tmp_path / "out")
    marks = next(row[2] for row in data.SHAPES if row[0] == "centre_straight_three_B")
    one, two = problem("centre_straight_three_B", "one", "").replace("PL[", f"{marks}PL[", 1), problem("centre_straight_three_W", "two", "")
    path.write_text(one + two)
    assert len(run(out, str(path)).stdout.splitlines()) == 1
    # White has a stone on the vital point, another problem stands in front, and the last one is gone.
    path.write_text(problem("centre_two_W", "new", "") + one.replace("AB[", f"AW[{THREE}]AB[", 1))
    told = run(out, str(path)).stdout.splitlines()
    assert told[-4:-1] == [f"new: {path}: new: killed", f"changed: {path}: one: killed by F9 -> lives", f"gone: {path}: two: lives by F9"]


def test_certificates_are_checked(book: Path, tmp_path: Path) -> None:
    out = tmp_path / "out"
    run(str(out), str(book), "--certificates")
    assert {json.loads(line)["certificate"] for line in (out / "report.json").read_text().splitlines()} == {"valid"}


def test_a_certificate_that_is_none(tmp_path: Path) -> None:
    # A program that says `killed`, and whose strategies are wrong.
    liar, path = tmp_path / "liar", tmp_path / "book.sgf"
    liar.write_text(f"#!/bin/sh\ncase $* in *--cert*) echo 1 killed; echo 'killed !aa.' ;; solve*) echo 1 killed fe ;; *) exec {os.environ['TSUMEGO']} $* ;; esac\n")
    liar.chmod(0o755)
    path.write_text(problem("centre_straight_three_B", "one", ""))
    ended = run(str(tmp_path / "out"), str(path), "--certificates", env={**os.environ, "TSUMEGO": str(liar)})
    assert "its certificate is invalid" in ended.stdout.splitlines()[0]


def test_one_run_at_a_time(book: Path, tmp_path: Path) -> None:
    out = tmp_path / "out"
    out.mkdir()
    with open(out / "answers.json", "w", encoding="utf-8") as kept:
        fcntl.flock(kept, fcntl.LOCK_EX)
        ended = run(str(out), str(book))
    assert (ended.returncode, ended.stderr) == (2, f"tsumego-book: another run works in {out}\n")


def test_a_run_that_is_ended_leaves_no_program(book: Path, tmp_path: Path) -> None:
    slow, out = tmp_path / "slow", tmp_path / "out"
    slow.write_text(f"#!/bin/sh\necho $$ >> {tmp_path}/pids\nexec sleep 600\n")
    slow.chmod(0o755)
    words = [sys.executable, "-B", str(BOOK), str(out), str(book), "--seconds", "600"]
    with subprocess.Popen(words, env={**os.environ, "TSUMEGO": str(slow), "TSUMEGO_SHOW": str(slow)}) as process:
        while not (tmp_path / "pids").exists():
            time.sleep(0.05)
        process.send_signal(signal.SIGTERM)
        assert process.wait(60) == 143
    pids, end = (tmp_path / "pids").read_text().split(), time.monotonic() + 60
    while any(os.path.exists(f"/proc/{pid}") for pid in pids):
        assert time.monotonic() < end, pids
        time.sleep(0.05)
    assert (out / "report.html").exists()


def test_a_comment_that_swallows_a_problem(tmp_path: Path) -> None:
    path = tmp_path / "book.sgf"
    path.write_text(problem("centre_straight_three_B", "one", f";B[{THREE}]C[Correct.)\n(;SZ[9]AB[aa]"))
    assert "C holds (;: is its ] missing" in run(str(tmp_path / "out"), str(path)).stdout


def test_a_folder_of_others_is_left_alone(book: Path, tmp_path: Path) -> None:
    ended = run(str(tmp_path), str(book))
    assert ended.returncode == 2 and "names a new folder" in ended.stderr and ended.stdout == ""


def test_a_file_is_no_folder(book: Path, tmp_path: Path) -> None:
    ended = run(str(book), str(tmp_path / "out"))
    assert ended.returncode == 2 and ended.stderr == f"tsumego-book: {book} is a file: the first word names a folder for the report, and the files come behind it\n"


def test_an_open_wall_is_told(tmp_path: Path) -> None:
    path = tmp_path / "open.sgf"
    path.write_text(data.CORNER)
    ended = run(str(tmp_path / "out"), str(path))
    assert "the wall is open: is a stone missing at F19 A15," in ended.stdout
    assert trees_of((tmp_path / "out" / "marked.sgf").read_text())[0].nodes[0].values("AB")[-2:] == ["fa", "ae"]


def test_names_of_files_stay_in_their_line(tmp_path: Path) -> None:
    path = tmp_path / "a\tb\nc.sgf"
    path.write_text("(;SZ[9]AB[aa]")
    name = f'"{tmp_path}/a\\tb\\nc.sgf"'
    ended = run(str(tmp_path / "out"), str(path))
    assert ended.stdout.splitlines()[0] == f"{name}, problem 1: refused: line 1: the tree that begins in line 1 isn't closed"
    table = [line.split("\t") for line in (tmp_path / "out" / "report.tsv").read_text().splitlines()]
    assert [len(row) for row in table] == [11, 11] and table[1][0] == name
    assert json.loads((tmp_path / "out" / "report.json").read_text())["file"] == str(path)
