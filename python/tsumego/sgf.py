"""Game trees in SGF (FF[4]): one reader and one writer. All properties are kept, in their order.

A text is read as bytes are: as UTF-8, and other bytes as lone surrogates. So a text of any encoding comes back as it was:
`trees_of(read_bytes(data))`, `write_bytes(text)`. A value keeps its backslashes; `plain` takes them out for people.
"""
import re
from dataclasses import dataclass, field
from typing import Iterator, List, Optional, Tuple

__all__ = ["GameTree", "Node", "SgfError", "escaped", "main_line", "plain", "read_bytes", "to_text", "trees_of", "write_bytes"]

# White space, and then a mark, the name of a property, or a value.
_TOKEN = re.compile(r"[\t-\r ]*(?:([();])|([A-Za-z0-9]+)|\[([^]\\]*(?:\\.[^]\\]*)*)\])", re.DOTALL)
# What may stand behind what: marks, names (n) and values (v).
_BEHIND = {"": "(", "(": ";", ";": ";()n", "n": "v", "v": ";()nv", ")": "()"}


class SgfError(ValueError):
    """A text that is no game tree. `at` counts its characters from 0, `line` its lines from 1; `trees` stand in front of the fault."""

    def __init__(self, words: str, at: int, line: int) -> None:
        super().__init__(f"line {line}: {words}")
        self.at, self.line = at, line
        self.trees: List[GameTree] = []


@dataclass
class Node:
    """The properties of a node: (name as it is written, values), in order. A name may stand twice."""

    properties: List[Tuple[str, List[str]]] = field(default_factory=list)

    def values(self, name: str) -> List[str]:
        """All values of a property, joined where it stands twice; none where it doesn't stand."""
        return [value for each, values in self.properties if short(each) == name for value in values]

    def first(self, name: str, other: str = "") -> str:
        """The first value of a property, or what is to stand for it."""
        values = self.values(name)
        return values[0] if values else other

    def has(self, *names: str) -> bool:
        return any(short(each) in names for each, _ in self.properties)

    def without(self, *names: str) -> "Node":
        return Node([(each, list(values)) for each, values in self.properties if short(each) not in names])

    def add(self, name: str, *values: str) -> "Node":
        """The node itself, with more values of a property. In a node a property stands once."""
        for at, (each, before) in enumerate(self.properties):
            if short(each) == name:
                self.properties[at] = (each, before + list(values))
                return self
        if values:
            self.properties.append((name, list(values)))
        return self


@dataclass
class GameTree:
    """As the grammar has it: a sequence of nodes, and then variations."""

    nodes: List[Node] = field(default_factory=list)
    variations: List["GameTree"] = field(default_factory=list)

    def all_nodes(self) -> Iterator[Node]:
        """Each node of the tree and of its variations, as they are written."""
        waiting = [self]
        while waiting:
            tree = waiting.pop()
            yield from tree.nodes
            waiting.extend(reversed(tree.variations))


def short(name: str) -> str:
    """The name of a property as FF[4] writes it: `GaMe` is `GM`."""
    return name if name.isupper() else "".join(each for each in name if not each.islower())


def main_line(tree: GameTree) -> List[Node]:
    """The nodes of the tree, of its first variation, of that one's first variation, and so on."""
    nodes, at = [], tree
    while True:
        nodes.extend(at.nodes)
        if not at.variations:
            return nodes
        at = at.variations[0]


def trees_of(text: str) -> List[GameTree]:
    """The game trees of a text. What stands in front of a tree, as a byte order mark, is skipped.

    Raises SgfError where a tree isn't closed or breaks the grammar, and where there is none.
    """
    trees: List[GameTree] = []
    at = text.find("(")
    while at >= 0:
        try:
            tree, at = _tree_at(text, at)
        except SgfError as fault:
            fault.trees = trees
            raise
        trees.append(tree)
        at = text.find("(", at)
    if not trees:
        raise SgfError("there is no game tree", 0, 1)
    return trees


def _tree_at(text: str, begin: int) -> Tuple[GameTree, int]:
    """The tree that begins there, and the place behind it. Trees may be as deep as they like: nothing here calls itself."""
    root: Optional[GameTree] = None
    open_trees: List[GameTree] = []
    last, at = "", begin
    while True:
        token = _TOKEN.match(text, at)
        mark, name, value = token.groups() if token else (None, None, None)
        kind = mark or ("n" if name else "v" if value is not None else "")
        if not token or kind not in _BEHIND[last] or (name and not short(name)):
            raise _error(text, begin, at, bool(token))
        at, last = token.end(), kind
        if kind == "(":
            tree = GameTree()
            if open_trees:
                open_trees[-1].variations.append(tree)
            root = root or tree
            open_trees.append(tree)
        elif kind == ")":
            open_trees.pop()
            if root and not open_trees:
                return root, at
        elif kind == ";":
            open_trees[-1].nodes.append(Node())
        elif name:
            open_trees[-1].nodes[-1].properties.append((name, []))
        else:
            open_trees[-1].nodes[-1].properties[-1][1].append(value or "")


def _error(text: str, begin: int, at: int, is_token: bool) -> SgfError:
    at += len(text[at:]) - len(text[at:].lstrip("\t\n\v\f\r "))
    line = text.count("\n", 0, at) + 1
    if at >= len(text):
        begun = text.count("\n", 0, begin) + 1
        return SgfError(f"the tree that begins in line {begun} isn't closed", begin, line)
    if text[at] == "\0":
        return SgfError("the text is in no encoding that is read, perhaps in UTF-16: save it as UTF-8", at, line)
    if text[at] == "[" and not is_token:
        return SgfError("a value isn't closed: its ] is missing", at, line)
    return SgfError(f"{text[at]!r} can't stand here", at, line)


def to_text(tree: GameTree) -> str:
    """The tree as SGF. Read again it is the same tree."""
    parts, waiting = [], [(tree, False)]
    while waiting:
        each, is_end = waiting.pop()
        if is_end:
            parts.append(")")
            continue
        parts.append("(")
        for node in each.nodes:
            parts.append(";")
            for name, values in node.properties:
                parts.append(name + "".join(f"[{value}]" for value in values))
        waiting.append((each, True))
        waiting.extend((variation, False) for variation in reversed(each.variations))
    return "".join(parts)


def read_bytes(data: bytes) -> str:
    return data.decode("utf-8", "surrogateescape")


def write_bytes(text: str) -> bytes:
    return text.encode("utf-8", "surrogateescape")


def plain(value: str, charset: str = "") -> str:
    """A value as people read it: without backslashes, by the encoding that CA names where it isn't UTF-8."""
    data = write_bytes(re.sub(r"\\(\r\n|\n\r|.)", lambda each: "" if each[1][0] in "\r\n" else each[1], value, flags=re.DOTALL))
    for name in ("utf-8", charset.strip()):
        try:
            return data.decode(name)
        except (LookupError, UnicodeDecodeError):
            continue
    return data.decode("latin-1")


def escaped(text: str) -> str:
    """A text as a value."""
    return re.sub(r"([]\\:])", r"\\\1", text)
