"""Unconditional life, by boards whose life is known, and how a strategy that ends there is written."""
from typing import Set

import pytest

from tsumego import Answer, Turn, Verdict
from tsumego.board import Board
from tsumego.life import life
from tsumego.problems import problem_of
from tsumego.sgf import to_text, trees_of
from tsumego.solution import solution
from tsumego.strategy import read_certificate


def board(*rows: str) -> Board:
    """A board as it is drawn: X is Black, O is White."""
    stones = {chr(97 + x) + chr(97 + y): {"X": "B", "O": "W"}[mark] for y, row in enumerate(rows) for x, mark in enumerate(row) if mark != "."}
    return Board(len(rows[0]), len(rows), stones)


@pytest.mark.parametrize(
    "rows, alive, eyes",
    [
        ([".X.X."], {"ba", "da"}, {"aa", "ca", "ea"}),
        # White fills an eye of two points, gives the stones up, and comes again.
        (["O.X.O"], set(), set()),
        # Two points in the corner are one eye, and two single ones two.
        (["..XX.", "XXX..", "....."], set(), set()),
        ([".X.X.", "XXXX.", "....."], {"ba", "da", "ab", "bb", "cb", "db"}, {"aa", "ca"}),
        # A white stone in an eye leaves it one, as long as each point of it touches the chain.
        ([".XO.X", "XXXXX", ".....", "....."], {"ba", "ea", "ab", "bb", "cb", "db", "eb"}, {"aa", "ca", "da"}),
        # An eye in the wall of which a chain can be taken is none.
        ([".XOX.", "XOOXX", "X.O.X", "XOOOX", "XXXXX"], set(), set()),
    ],
)
def test_life_on_the_whole_board(rows: str, alive: Set[str], eyes: Set[str]) -> None:
    assert life(board(*rows), "B") == (alive, eyes)


def test_a_liberty_outside_the_region_stays() -> None:
    found = board(".XX..", "XX...")
    assert life(found, "B", ["aa"]) == ({"ba", "ca", "ab", "bb"}, {"aa"})
    assert life(found, "B", ["aa", "da", "cb", "ea", "db", "eb"]) == (set(), set())


def written(text: str, turn: Turn) -> str:
    problem = problem_of(trees_of(text)[0])
    answer = Answer("", Verdict("lives"), problem, (turn,), Verdict("lives"))
    return to_text(solution(answer).variations[0])


def test_a_strategy_that_ends_at_life() -> None:
    # White's pass is answered by a stone that makes two eyes; its play in the first eye by life as it stands.
    text = "(;SZ[7:2]PL[W]AB[ba][ab][bb][cb][db][eb][fb][gb]TR[ba]SQ[aa][ca][da][ea][fa][ga])"
    turn = Turn("pass", False, "da", read_certificate("lives !da."))
    said = "Black is alive. White can't take these stones any more."
    assert written(text, turn) == f"(;W[]BM[1]C[Fails\\: Black D2.];B[da]C[{said}]TB[aa][ca][ea][fa][ga])"
    alive = text.replace("[ab]", "[ab][da]", 1).replace("[da][ea]", "[ea]")
    assert written(alive, Turn("ea", False, "pass", read_certificate("lives ."))) == f"(;W[ea]BM[1]C[Fails\\: Black needs no answer. {said}]TB[aa][ca][ea][fa][ga])"


def test_other_ends() -> None:
    text = "(;SZ[3:1]AB[aa]PL[W]TR[aa]SQ[ba])"
    assert written(text, Turn("ba", True, None, read_certificate("killed ."))) == "(;W[ba]TE[1]C[Wins. Black's stones are captured.])"
    seki = Turn("pass", False, "pass", read_certificate("lives !--."))
    assert written("(;SZ[5:1]AB[aa]AW[da]PL[W]TR[aa])", seki) == "(;W[]BM[1]C[Fails\\: Black needs no answer.];B[]C[Black lives.])"
