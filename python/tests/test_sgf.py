"""The reader and writer of game trees: what is read is written back the same."""
import pytest

from tsumego.sgf import GameTree, Node, SgfError, escaped, main_line, plain, read_bytes, to_text, trees_of, write_bytes

TEXT = "(;GM[1]C[a\\]b (;c]AB[aa][ba:cc]xX[](;B[ab];W[])(;B[ba](;W[aa])(;C[\\\\])))"


def test_written_back_the_same() -> None:
    assert [to_text(tree) for tree in trees_of(TEXT + "\n\n" + TEXT)] == [TEXT, TEXT]


def test_white_space_and_what_stands_in_front() -> None:
    trees = trees_of("\ufeffhint: none\n( ;\tGaMe [1]\n[2] ; B\n[aa] ) ")
    assert trees == [GameTree([Node([("GaMe", ["1", "2"])]), Node([("B", ["aa"])])])]
    assert trees[0].nodes[0].values("GM") == ["1", "2"]


def test_main_line() -> None:
    assert [node.properties[0] for node in main_line(trees_of(TEXT)[0])[1:]] == [("B", ["ab"]), ("W", [""])]


@pytest.mark.parametrize(
    "text, line, words",
    [
        ("", 1, "there is no game tree"),
        ("(;B[aa])\n(;B[ab]", 2, "isn't closed"),
        ("(;B[aa]\nC[open", 2, "its ] is missing"),
        ("(;B\n(;W[aa]))", 2, "'(' can't stand here"),
        ("(;b[aa])", 1, "can't stand here"),
        ("()", 1, "')' can't stand here"),
    ],
)
def test_faults_name_their_line(text: str, line: int, words: str) -> None:
    with pytest.raises(SgfError) as fault:
        trees_of(text)
    assert fault.value.line == line and words in str(fault.value)


@pytest.mark.parametrize("encoding", ["utf-16", "utf-16-le", "utf-16-be"])
def test_another_encoding_is_named(encoding: str) -> None:
    with pytest.raises(SgfError, match="UTF-16: save it as UTF-8"):
        trees_of(read_bytes("(;SZ[9]AB[aa])".encode(encoding)))


def test_trees_in_front_of_a_fault_are_kept() -> None:
    with pytest.raises(SgfError) as fault:
        trees_of("(;B[aa])(;W[ab])(;B[")
    assert [to_text(tree) for tree in fault.value.trees] == ["(;B[aa])", "(;W[ab])"]


def test_deep_trees() -> None:
    text = "(;B[aa]" * 50_000 + ")" * 50_000
    assert to_text(trees_of(text)[0]) == text


def test_bytes_of_other_encodings_come_back() -> None:
    data = "(;CA[GBK]GN[死活])".encode("gbk")
    tree = trees_of(read_bytes(data))[0]
    assert write_bytes(to_text(tree)) == data
    assert plain(tree.nodes[0].first("GN"), tree.nodes[0].first("CA")) == "死活"


def test_values_for_people() -> None:
    assert plain("a\\]b\\\\c\\\nd") == "a]b\\cd"
    assert plain(escaped("a]b\\c:d")) == "a]b\\c:d"


def test_a_property_stands_once() -> None:
    first = Node([("AB", ["aa"]), ("PL", ["B"])])
    more = Node(list(first.properties)).add("AB", "bb").add("AW").add("TR", "aa")
    assert more.properties == [("AB", ["aa", "bb"]), ("PL", ["B"]), ("TR", ["aa"])] and first.properties[0] == ("AB", ["aa"])
