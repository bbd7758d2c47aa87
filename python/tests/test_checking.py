"""Solutions that files give: right ones, and those with a fault."""
from typing import List

import data
import pytest

import tsumego
from tsumego.checking import Line, faults, lines_of
from tsumego.sgf import trees_of

# A straight three of White in the corner: C7 is the only move that kills.
THREE = "(;SZ[7]{}AB[ac][bc][cc][dc][ec][fc][fb][fa]AW[ab][bb][cb][db][eb][aa][ea]PL[B]{})"


def found(solution: str, before: str = "") -> List[str]:
    tree = trees_of(THREE.format(before, solution))[0]
    return faults(tree, tsumego.solve(tree, None, 50), 50)


@pytest.mark.parametrize(
    "solution",
    [
        "",
        ";B[ca]",
        "(;B[ca]C[Correct.])(;B[ba]C[Wrong.];W[ca])",
        "(;B[ba];W[ca]C[Wrong])(;B[ca];W[ba];B[da]C[RIGHT])",
        "(;B[ba];W[ca])(;B[ca];W[ba]C[RIGHT])",
        "(;B[ba]BM[1];W[ca])(;B[ca])",
        "(;B[ca]TE[1])(;B[da];W[ca])",
    ],
)
def test_right_solutions(solution: str) -> None:
    assert found(solution) == []


@pytest.mark.parametrize(
    "solution, fault",
    [
        (";B[ba]", "the right line B7 fails, for it loses to C7"),
        ("(;B[ca]C[Wrong.])(;B[da]C[Correct.])", "the line C7 is called wrong, but Black still wins"),
        ("(;B[da]C[Correct.])", "the right line D7 fails, for it loses to C7"),
        (";W[ca];B[ba]", "the solution begins with White, but Black is to move"),
        (";B[ca];W[ca]", "the line C7 C7: move 2, C7, can't be played"),
        (";B[ba];W[ca]", "the right line B7 C7 fails: move 1, B7, loses to C7"),
        (";B[C7]", "B[C7], move 1 of a line, is no point in SGF, which writes B[ca]"),
        (";B[ca];W[jj]", "W[jj], move 2 of a line, is no point of the board"),
        ("(;B[ba])(;B[ca]C[RIGHT];W[zz])", "W[zz], move 2 of a line, is no point of the board"),
    ],
)
def test_faults(solution: str, fault: str) -> None:
    assert any(fault in each for each in found(solution))


def test_a_setup_that_lacks_its_side() -> None:
    row = next(row for row in data.SHAPES if row[0] == "centre_straight_three_B")
    tree = trees_of(row[3].replace("PL[B]", "")[:-1] + ";W[ee])")[0]
    assert "the solution begins with White, but Black is to move: is PL[W] missing?" in faults(tree, tsumego.solve(tree, None, 50), 50)


def test_a_losing_third_move() -> None:
    # A straight four: White takes the other vital point, unless Black plays on.
    text = "(;SZ[9]AB[ac][bc][cc][dc][ec][fc][gb][ga][gc]AW[ab][bb][cb][db][eb][fb][fa]PL[W](;W[ca];B[ba];W[ea]C[Correct]))"
    tree = trees_of(text)[0]
    assert not any("loses" in each for each in faults(tree, tsumego.solve(tree, None, 50), 50))


def test_what_is_asked() -> None:
    assert found("", "GN[Is it alive?]") == []
    dead = next(row for row in data.SHAPES if row[0] == "centre_straight_three_B")
    tree = trees_of(dead[3].replace("PL[B]", "PL[W]AB[ee]"))[0]
    assert tsumego.solve(tree, None, 50).verdict.word in ("lives", "killed")


def test_lines() -> None:
    tree = trees_of("(;AB[aa];B[ab](;W[ac];B[ad])(;W[ae]C[Wrong]))")[0]
    assert lines_of(tree, "B") == [
        Line((("B", "ab"), ("W", "ac"), ("B", "ad")), True),
        Line((("B", "ab"), ("W", "ae")), False),
    ]
