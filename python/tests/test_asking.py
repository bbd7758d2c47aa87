"""Answers of the programs, held against those of books and suites."""
import re
from dataclasses import replace
from typing import Dict, List

import data
import pytest

import tsumego
from tsumego import asking, words
from tsumego.ko import is_looked_through
from tsumego.sgf import Node, main_line, to_text, trees_of
from tsumego.solution import solution
from tsumego.strategy import positions


# So that a busy machine settles them too.
SECONDS = 30


def names(answer: tsumego.Answer) -> List[str]:
    return [answer.problem.point(turn) for turn in answer.winning]


def refutations(answer: tsumego.Answer) -> Dict[str, str]:
    return {answer.problem.point(each.turn): answer.problem.point(each.refutation) for each in answer.failing}


@pytest.mark.parametrize("stone", [None, "D18", "db"])
def test_the_corner_with_a_stone_on_the_edge(stone: str) -> None:
    answer = tsumego.solve(data.CORNER, stone, SECONDS)
    assert (answer.verdict.word, answer.if_other_begins.word) == ("killed", "lives")
    assert names(answer) == ["A18", "B18", "A17"]
    assert refutations(answer) == {"A19": "B18", "B19": "B18", "D19": "B18", "E19": "B18", "C18": "A18", "A16": "B18"}
    assert len(answer.closings) == 9 and {each.verdict.word for each in answer.closings} == {"killed"} and not answer.closings_agree


def test_the_tripod_is_dead() -> None:
    answer = tsumego.solve(data.TRIPOD, None, SECONDS)
    assert (answer.verdict.word, answer.if_other_begins.word, answer.closings_agree) == ("killed", "killed", True)
    assert "Black begins and can kill White's group at C18, by A19, B19, C19, D19, A18, B18, A17 or A16. It is dead as it stands." in " ".join(words.said(answer))


def test_five_on_the_second_line() -> None:
    answer = tsumego.solve(data.FIVE, None, SECONDS)
    assert names(answer) == ["B19", "E19"]
    # E19 is the vital point itself.
    assert {each.stones: (each.verdict.word, each.if_other_begins.word) for each in answer.closings} == {
        ("ga",): ("killed", "lives"), ("fa",): ("killed", "lives"), ("ea",): ("killed", "killed")}


@pytest.mark.parametrize("name, verdict, marks, text", data.SHAPES, ids=[row[0] for row in data.SHAPES])
def test_shapes_without_marks(name: str, verdict: str, marks: str, text: str) -> None:
    answer = tsumego.solve(text, None, SECONDS)
    assert answer.verdict.word == verdict and not answer.unknown
    squares = re.findall(r"\[(..)\]", marks.partition("SQ")[2])
    assert sorted(answer.problem.region) == sorted(squares)


def edge_stones(text: str) -> List[str]:
    """The stones of the wall on the board's edge."""
    last = chr(96 + int(re.search(r"SZ\[(\d+)", text)[1]))
    black = re.findall(r"\[(..)\]", re.search(r"AB((?:\[..\])+)", text)[1])
    return [stone for stone in black if stone[0] in "a" + last or stone[1] in "a" + last]


WITH_EDGE = [row for row in data.SHAPES if edge_stones(row[3])][::8]


@pytest.mark.parametrize("name, verdict, marks, text", WITH_EDGE, ids=[row[0] for row in WITH_EDGE])
def test_shapes_with_a_hole_in_the_wall(name: str, verdict: str, marks: str, text: str) -> None:
    answer = tsumego.solve(text.replace(f"[{edge_stones(text)[0]}]", "", 1), marks[3:5], SECONDS)
    assert answer.verdict.word == verdict and {each.verdict.word for each in answer.closings} == {verdict}
    assert all(each.stones for each in answer.closings)


@pytest.mark.parametrize("name, verdict, text", data.SUITE[::12], ids=[row[0] for row in data.SUITE[::12]])
def test_problems_of_the_suite(name: str, verdict: str, text: str) -> None:
    answer = tsumego.solve(text, None, SECONDS)
    assert answer.verdict.word == verdict and all(each.refutation for each in answer.failing)


def test_both_sides_of_a_shape_agree_about_the_other() -> None:
    by_name = {row[0]: tsumego.solve(row[3], None, SECONDS) for row in data.SHAPES if row[0].startswith("side_")}
    for name, answer in by_name.items():
        other = by_name[name[:-1] + ("W" if name.endswith("B") else "B")]
        assert answer.if_other_begins.word == other.verdict.word, name


def test_the_other_side_and_a_group_that_needs_no_move() -> None:
    answer = tsumego.solve(next(row[3] for row in data.SHAPES if row[0] == "centre_bent_four_W"), None, SECONDS)
    assert answer.verdict.word == "lives" and "pass" in answer.winning
    assert "it needs no move" in " ".join(words.said(answer))


def test_refusals_say_why() -> None:
    for text, why in (
        ("(;SZ[7]AB[aa]TR[ab])", "TR is on an empty point"),
        ("(;SZ[7]AB[aa];B[aa]TR[aa])", "node 2: the move is on a point where a stone stands; look at A7"),
        ("(;SZ[7]AB[zz])", "a value is no point of the board"),
        ("(;SZ[70])", "SZ is no size"),
        ("(;SZ[7]AB[aa", "its ] is missing"),
        ("", "there is no game tree"),
        ("(;SZ[7]AB[aa]AW[ga])", "no group was found that is enclosed"),
    ):
        answer = tsumego.solve(text)
        assert answer.verdict.word == "refused" and answer.problem is None, text
        assert why in answer.why, answer.why
    assert "no stone stands on G1" in tsumego.solve("(;SZ[7]AB[aa]AW[ba])", "G1").why
    assert "J9 isn't on the board" in tsumego.solve("(;SZ[7]AB[aa]AW[ba])", "J9").why


def test_triangles_without_squares_get_squares() -> None:
    name, verdict, marks, text = data.SHAPES[0]
    target = marks[3:5]
    answer = tsumego.solve(text.replace("PL[", f"TR[{target}]PL[", 1), None, SECONDS)
    assert answer.verdict.word == verdict and answer.problem.targets == (target,) and answer.problem.region


def test_time_runs_out() -> None:
    answer = tsumego.solve(data.OPEN, seconds=0.5)
    assert (answer.verdict.word, answer.verdict.detail) == ("unsettled", "time")
    assert "Try --seconds" in " ".join(words.said(answer))


def test_what_is_asked_ahead_changes_no_answer(monkeypatch: pytest.MonkeyPatch) -> None:
    monkeypatch.setattr(asking, "SOON", 0)
    # White loses the first, and wins the others by one play or by several.
    for name in ("centre_straight_three_B", "centre_straight_three_W", "centre_bent_four_W"):
        tree, told = trees_of(next(row[3] for row in data.SHAPES if row[0] == name))[0], []
        alone = asking.answer(tree, None, SECONDS, told.append)
        among = asking.answer(tree, None, SECONDS, is_alone=False)
        assert replace(alone, seconds=0, turns=()) == replace(among, seconds=0, turns=())
        assert [replace(each, strategy=None) for each in alone.turns] == [replace(each, strategy=None) for each in among.turns]
        # The problem and the verdict come first, and each first turn that was asked about once.
        assert [type(part).__name__ for part in told[:2]] == ["Marked", "Verdict"] and len(told[2:]) == len({part.turn for part in told[2:]})
        assert {part for part in told[2:]} <= set(alone.turns)


def test_a_long_certificate_isnt_looked_through() -> None:
    # (five turns of its own side, and two of the other side to answer)
    assert positions("killed !ca?ba!da.da!ba.--=!ba?ca!ba.--*0;;") == 7
    assert is_looked_through("lives ?" + "ca!da." * 4_999) and not is_looked_through("lives ?" + "ca!da." * 5_000)


def all_moves(tree: tsumego.GameTree) -> List[Node]:
    return [node for node in tree.all_nodes() if node.has("B", "W")]


def test_the_answer_as_a_game_tree() -> None:
    answer = tsumego.with_strategies(tsumego.solve(data.CORNER, "D18", SECONDS), SECONDS)
    text = to_text(solution(answer))
    tree = trees_of(text)[0]
    root = main_line(tree)[0]
    assert "Black begins and can kill White's group at D18, by A18, B18 or A17." in root.first("C")
    assert sorted(root.values("LB")) == sorted(["ab:+", "bb:+", "ac:+", "aa:-", "ba:-", "da:-", "ea:-", "cb:-", "ad:-"])
    first = [each.nodes[0] for each in tree.variations]
    assert [node.first("B") for node in first if node.has("TE")] == ["ab", "bb", "ac"]
    assert {node.first("B") for node in first if node.has("BM")} == {"aa", "ba", "da", "ea", "cb", "ad"}
    assert all(each.nodes[1:] or each.variations for each in tree.variations)
    assert 50 < len(all_moves(tree)) <= 2_100
    # Read again it is the same problem.
    again = tsumego.solve(text, None, SECONDS)
    assert (again.verdict.word, again.winning) == (answer.verdict.word, answer.winning)
