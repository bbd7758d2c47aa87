"""Random game trees come back as they were, and random white space between their tokens changes nothing."""
import pytest

pytest.importorskip("hypothesis")

from hypothesis import HealthCheck, given, settings  # noqa: E402
from hypothesis import strategies as st  # noqa: E402

from tsumego.sgf import GameTree, Node, SgfError, read_bytes, to_text, trees_of, write_bytes  # noqa: E402

# The same trees each time, however slow the machine is.
settings.register_profile("gate", deadline=None, derandomize=True, database=None, suppress_health_check=list(HealthCheck))
settings.load_profile("gate")

NAMES = st.from_regex("[a-z0-9]{0,2}[A-Z][A-Za-z0-9]{0,2}", fullmatch=True)
VALUES = st.lists(st.one_of(st.characters(blacklist_characters="]\\", blacklist_categories=["Cs"]), st.sampled_from(["\\]", "\\\\", "\\a"])), max_size=6).map("".join)
NODES = st.builds(Node, st.lists(st.tuples(NAMES, st.lists(VALUES, min_size=1, max_size=3)), max_size=3))
TREES = st.recursive(
    st.builds(GameTree, st.lists(NODES, min_size=1, max_size=3)),
    lambda trees: st.builds(GameTree, st.lists(NODES, min_size=1, max_size=2), st.lists(trees, max_size=3)),
    max_leaves=8,
)


@given(st.lists(TREES, min_size=1, max_size=3))
def test_what_is_written_is_read_the_same(trees: list) -> None:
    assert trees_of("\n".join(map(to_text, trees))) == trees


@given(TREES)
def test_what_is_read_is_written_the_same(tree: GameTree) -> None:
    data = write_bytes(to_text(tree))
    assert write_bytes(to_text(trees_of(read_bytes(data))[0])) == data


@given(st.binary(max_size=60))
def test_any_bytes_are_trees_or_a_fault(data: bytes) -> None:
    assert write_bytes(read_bytes(data)) == data
    try:
        trees_of(read_bytes(b"(;" + data))
    except SgfError:
        pass
