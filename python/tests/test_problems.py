"""Points, boards, problems and strategies, without the programs."""
import pytest

from tsumego.board import Board
from tsumego.dividing import joined
from tsumego.points import editor_name, read_point
from tsumego.problems import chapter, problem_of
from tsumego.sgf import to_text, trees_of
from tsumego.strategy import cut_at_pass, read_certificate, size


@pytest.mark.parametrize("point, rows, name", [("aa", 19, "A19"), ("ib", 19, "J18"), ("ss", 19, "T1"), ("ca", 7, "C7"), ("pass", 9, "pass")])
def test_points_as_editors_name_them(point: str, rows: int, name: str) -> None:
    assert editor_name(point, rows) == name
    if point != "pass":
        assert read_point(name, 19, rows) == read_point(name.lower(), 19, rows) == read_point(point, 19, rows) == point


@pytest.mark.parametrize("word", ["I5", "A20", "A0", "a", "19", "ta", "U1", "", "C7x"])
def test_words_that_are_no_points(word: str) -> None:
    with pytest.raises(ValueError):
        read_point(word, 19, 19)


def test_plays_take_stones() -> None:
    board = Board(3, 1, {"aa": "W", "ba": "B"})
    assert board.play("W", "ca") == {"ba"} and board.stones == {"aa": "W", "ca": "W"}
    board = Board(3, 1, {"aa": "B", "ca": "W"})
    assert board.play("B", "ba") == {"ca"}
    board = Board(2, 2, {"ba": "W", "ab": "W", "bb": "W"})
    assert board.play("B", "aa") == {"ba", "ab", "bb"}
    board = Board(3, 1, {"ba": "W", "ca": "W"})
    assert board.play("W", "aa") == {"aa", "ba", "ca"}


def problem(text: str):
    return problem_of(trees_of(text)[0])


def test_a_problem_and_those_that_follow() -> None:
    found = problem("(;SZ[4:1]AW[ba]PL[B]C[x]TR[ba]SQ[aa][ca];B[ca])")
    assert (found.columns, found.rows, found.targets, found.region) == (4, 1, ("ba",), ("aa", "ca"))
    assert (found.to_move, found.defender, found.open_points(), found.comment) == ("B", "W", ["aa", "ca"], "x")
    assert found.text() == "(;GM[1]FF[4]SZ[4:1]AW[ba]PL[B]TR[ba]SQ[aa][ca])"
    assert found.after("ca").text() == "(;GM[1]FF[4]SZ[4:1]AW[ba]PL[B];B[ca]TR[ba]SQ[aa][ca])"
    assert found.after("ca").to_move == "W" and found.with_other_side().to_move == "W"
    assert found.with_other_side().with_other_side() == found
    # Black is taken to have passed in front of White's pass.
    implied = problem("(;SZ[1:5]AB[aa];W[]TR[aa])")
    assert (implied.to_move, implied.with_other_side().to_move) == ("B", "W")
    assert found.with_stones("B", ["da"]).text() == "(;GM[1]FF[4]SZ[4:1]AW[ba]PL[B]AB[da]TR[ba]SQ[aa][ca])"


@pytest.mark.parametrize(
    "text, nodes",
    [
        ("(;SZ[5];AB[aa]AW[bb];B[cc];W[dd])", 1),
        ("(;SZ[5];B[aa];W[bb];AB[cc];B[dd])", 3),
        ("(;SZ[5];B[aa];W[bb])", 2),
        ("(;SZ[5]AB[aa];PL[W];W[bb]TR[aa];B[cc])", 3),
    ],
)
def test_the_solution_is_no_part_of_a_problem(text: str, nodes: int) -> None:
    assert len(problem(text).nodes) == nodes


def test_chapters() -> None:
    tree = trees_of("(;GN[x]SZ[19](;SZ[9]AB[aa];B[bb])(;AW[ab]))")[0]
    assert [to_text(each) for each in chapter(tree)] == ["(;GN[x]SZ[9];AB[aa];B[bb])", "(;GN[x]SZ[19];AW[ab])"]
    solution = trees_of("(;AB[aa](;B[ab])(;AB[ac]))")[0]
    assert chapter(solution) == [solution]


def test_legal_turns() -> None:
    # Black takes the ko, and White may not take back.
    found = problem("(;SZ[4:2]AB[aa][bb]AW[ba][da][cb]PL[B];B[ca]TR[da]SQ[ba][db])")
    assert found.position()[0].key() == {("aa", "B"), ("bb", "B"), ("ca", "B"), ("da", "W"), ("cb", "W")}
    assert found.legal_turns() == ["db", "pass"]
    # A setup begins a new history.
    assert problem("(;SZ[4:2]AB[aa][bb][ca]AW[da][cb]PL[W]TR[da]SQ[ba][db])").legal_turns() == ["ba", "db", "pass"]
    # A suicide of one stone repeats the position, one of two stones doesn't.
    assert problem("(;SZ[3:1]AW[ba]PL[B]TR[ba])").legal_turns() == ["pass"]
    assert problem("(;SZ[3:2]AW[ba][ab]PL[B]TR[ba]SQ[aa])").legal_turns() == ["pass"]
    assert problem("(;SZ[4:1]AB[ba]AW[ca]PL[B]TR[ba]SQ[aa])").legal_turns() == ["aa", "pass"]


def test_certificates_that_are_joined() -> None:
    assert cut_at_pass("?aa=!ab.ba*0--!aa.;") == "?aa=!ab.ba*0--.;"
    assert cut_at_pass("?aa?ab.--.;ba!--?--.;--?;;") == "?aa?ab.--.;ba!--?--.;--.;"
    assert joined([("aa", "=!ab=?--.;"), ("ba", "!aa=?ca*0;"), ("--", "*1")]) == "aa=!ab=?--.;ba!aa=?ca*2;--*4"


def test_certificates() -> None:
    found = read_certificate("killed !ca?aa.--!aa.;\n")
    assert found.pick == "ca" and found.then and list(found.then.replies) == ["aa", "pass"]
    assert found.then.replies["pass"].pick == "aa" and found.then.replies["aa"].branches() == []
    assert (size(found, 1), size(found, 2), size(found, 9)) == (1, 3, 4) and (found.depth, found.then.depth) == (3, 2)
    shared = read_certificate("lives ?aa=!ab?--.;ba*0;")
    assert shared.replies["aa"] is shared.replies["ba"]
    for text in ("killed !ca?aa.", "killed !ca..", "killed x"):
        with pytest.raises(ValueError):
            read_certificate(text)
