"""Kos that books know, and shapes that are none."""
import time
from pathlib import Path
from typing import Tuple

import data
import kos
import pytest

import tsumego
from tsumego import solving
from tsumego import words
from tsumego.ko import leaning_on_repetition, with_attackers_threat, with_defenders_threat
from tsumego.problems import problem_of
from tsumego.sgf import trees_of
from tsumego.strategy import read_certificate

EXAMPLES = Path(__file__).resolve().parents[2] / "examples"
SECONDS = 10


@pytest.fixture(autouse=True)
def slow_clock(monkeypatch: pytest.MonkeyPatch) -> None:
    """How much is asked goes by an answer's seconds, and not by the machine: so a busy one gets the same answers, if it may take longer."""
    monkeypatch.setattr(solving.Clock, "spent", lambda clock: (time.monotonic() - clock.begun) / 10)


def shape(name: str) -> kos.Shape:
    return next(each for each in kos.KOS + kos.NO_KOS if each.name == name)


@pytest.mark.parametrize("name, verdict", [("ko_black_takes", "killed"), ("ko_white_took", "lives")])
def test_a_ko_that_is_taken(name: str, verdict: str) -> None:
    answer = tsumego.solve((EXAMPLES / f"{name}.sgf").read_text(), None, SECONDS)
    assert answer.ko and (answer.verdict.word, answer.ko.decides, answer.ko.threats) == (verdict, True, 1)
    assert "But a ko decides: with one ko threat" in " ".join(words.said(answer))
    # Each made problem can be asked again, and says the opposite.
    assert {tsumego.solve(each.text()).verdict.word for each in answer.ko.tried} == {"killed", "lives"} - {verdict}


@pytest.mark.parametrize("shape", kos.KOS + kos.NO_KOS, ids=lambda shape: shape.name)
def test_kos_as_books_know_them(shape: kos.Shape) -> None:
    answer = tsumego.solve(shape.text(), None, SECONDS)
    assert answer.ko and (answer.verdict.word, bool(answer.ko.decides)) == (shape.verdict, shape.is_ko)
    assert len({tsumego.solve(each.text(), None, SECONDS).verdict.word for each in answer.ko.tried}) <= 1 + shape.is_ko


@pytest.mark.parametrize("row", [row for row in data.SHAPES if row[0].startswith("centre_")], ids=lambda row: row[0])
def test_eye_spaces_without_a_ko(row: Tuple[str, ...]) -> None:
    answer = tsumego.solve(row[3].replace("PL[", f"{row[2]}PL[", 1), None, SECONDS)
    assert answer.verdict.word == row[1] and answer.ko and answer.ko.decides is False


def test_a_strategy_that_leans_on_repetition() -> None:
    ko = problem_of(trees_of(shape("a ko for the second eye in the centre, which White took").text())[0])
    # Black may not take back, so its take isn't among the turns that are answered: White takes the stone, and has two eyes.
    found = leaning_on_repetition(ko, read_certificate("lives ?gd!dd.--!gd.;"))
    assert found and [each.position()[0].key() for each in found] == [ko.position()[0].key()] and found[0].legal_turns() == ["dd", "gd", "pass"]
    assert leaning_on_repetition(ko, read_certificate("lives ?dd.gd.--.;")) == []
    cut = problem_of(trees_of(shape("a connection that is cut").text())[0])
    assert leaning_on_repetition(cut, read_certificate("killed !aa.")) == []


def test_threats_have_room() -> None:
    problem = problem_of(trees_of("(;SZ[13]AW[ca][cb][ba]AB[da][db][cc][bb][ac]TR[ca]SQ[aa][ab])")[0])
    one = with_attackers_threat(problem)
    assert one and set(one.targets) == {"ca", "ma"} and set(one.region) == {"aa", "ab", "la", "mb"}
    assert with_attackers_threat(with_attackers_threat(one)) and not with_attackers_threat(with_attackers_threat(with_attackers_threat(one)))
    wall = with_defenders_threat(problem)
    assert wall is None or len(wall.region) == 4


def test_a_defender_that_takes_its_own_target() -> None:
    # White's suicide at A1 ends the game: no ko can follow.
    answer = tsumego.solve("(;SZ[7]PL[W]AW[ab][ba]AB[ca][bb][ac][cb][bc]TR[ab][ba]SQ[aa])", None, SECONDS)
    assert answer.verdict.word == "killed" and answer.ko and not answer.ko.decides
