"""Problems: what `tsumego solve` reads of a game tree, and the problems that follow from one: after a turn, with the other side to
begin, with more stones. A problem is never changed: each method makes a new one."""
import functools
import re
from dataclasses import dataclass, replace
from typing import FrozenSet, Iterable, List, Optional, Set, Tuple

from .board import BLACK, NAMES, OTHER, Board
from .points import PASS, editor_name, in_rows, read_point, sgf_name
from .sgf import GameTree, Node, main_line, plain, short, to_text

__all__ = ["MOVES", "Problem", "SETUP", "asked_at", "chapter", "move", "moves_of", "name_of", "problem_of", "set_up", "size_of"]

SETUP, MOVES = ("AB", "AW", "AE"), ("B", "W")


def size_of(root: Node) -> Tuple[int, int]:
    """Columns and rows. Raises ValueError where SZ is no size."""
    words = root.first("SZ", "19").strip()
    if not re.fullmatch(r"\+?[0-9]{1,5}(:\+?[0-9]{1,5})?", words):
        raise ValueError("SZ is no size")
    sides = [int(side) for side in words.split(":")]
    if not all(1 <= side <= 19 for side in sides):
        raise ValueError("SZ is no size from 1 to 19")
    return sides[0], sides[-1]


def points_of(values: Iterable[str], columns: int, rows: int) -> List[str]:
    """The points of a list of points and rectangles. Raises ValueError where a value is neither."""
    return list(_points_of(tuple(values), columns, rows))


@functools.lru_cache(1024)
def _points_of(values: Tuple[str, ...], columns: int, rows: int) -> Tuple[str, ...]:
    # (the problems that are made of one have its setup)
    found: List[str] = []
    for value in values:
        corners = [read_point(corner, columns, rows) for corner in value.strip().split(":")]
        across, down = sorted({corner[0] for corner in corners}), sorted({corner[1] for corner in corners})
        for row in range(ord(down[0]) - 97, ord(down[-1]) - 96):
            found.extend(sgf_name(column, row) for column in range(ord(across[0]) - 97, ord(across[-1]) - 96))
    return tuple(dict.fromkeys(found))


@dataclass(frozen=True)
class Problem:
    """A problem with marks. `nodes` set up stones or move; `targets` have triangles and `region` squares, both points in SGF's
    letters. An empty region is the whole board. `name` and `comment` are for people."""

    columns: int
    rows: int
    nodes: Tuple[Node, ...]
    targets: Tuple[str, ...]
    region: Tuple[str, ...]
    name: str = ""
    comment: str = ""

    def head(self) -> Node:
        size = f"{self.columns}" if self.columns == self.rows else f"{self.columns}:{self.rows}"
        return Node([("GM", ["1"]), ("FF", ["4"]), ("SZ", [size])])

    def marked_nodes(self) -> List[Node]:
        """The nodes, the root's properties in the first and the marks in the last."""
        nodes = [Node(list(node.properties)) for node in self.nodes] or [Node()]
        nodes[0].properties[:0] = self.head().properties
        nodes[-1].add("TR", *self.targets).add("SQ", *self.region)
        return nodes

    def text(self) -> str:
        """The problem as SGF."""
        return to_text(GameTree(self.marked_nodes()))

    def position(self) -> Tuple[Board, str]:
        """The position, and who is to move."""
        board, to_move, _ = self._history
        return board.copy(), to_move

    @functools.cached_property
    def _history(self) -> Tuple[Board, str, Set[FrozenSet[Tuple[str, str]]]]:
        """The position, who is to move, and the positions since the last setup, which no play may repeat."""
        board, to_move = Board(self.columns, self.rows, {}), BLACK
        seen = {board.key()}
        for node in self.nodes:
            moves = moves_of([node])
            if not moves:
                to_move = node.first("PL", BLACK).strip()[:1].upper()
            for name in SETUP:
                points = points_of(node.values(name), self.columns, self.rows)
                board.remove(points)
                if name != "AE":
                    board.stones.update((point, name[1]) for point in points)
            if not moves:
                seen.clear()
            for colour, turn in moves:
                board.play(colour, turn)
                to_move = OTHER[colour]
            seen.add(board.key())
        return board, to_move, seen

    def legal_turns(self) -> List[str]:
        """The plays of the side to move that repeat no position, row by row, and the pass."""
        board, to_move, seen = self._history

        def is_new(turn: str) -> bool:
            after = board.copy()
            after.play(to_move, turn)
            return after.key() not in seen

        return list(filter(is_new, self.open_points())) + [PASS]

    @property
    def to_move(self) -> str:
        return self.position()[1]

    @property
    def defender(self) -> str:
        """The colour of the targets."""
        return self.position()[0].stones[self.targets[0]]

    @property
    def attacker(self) -> str:
        return OTHER[self.defender]

    def open_points(self, board: Optional[Board] = None) -> List[str]:
        """The empty points of the region, row by row from the upper left, in the problem's position or in another one."""
        board = board or self.position()[0]
        return in_rows(point for point in self.region or board.points() if point not in board.stones)

    def after(self, turn: str) -> "Problem":
        """The problem after a turn of the side that is to move. Two passes in a row would end a record, so the second takes the first out."""
        colour = self.to_move
        if turn != PASS or (OTHER[colour], PASS) not in moves_of(self.nodes[-1:]):
            return self.with_moves([(colour, turn)])
        before = replace(self, nodes=self.nodes[:-1])
        # (the same side was to move in front of that pass, if it is taken to have passed there)
        return before if before.to_move != colour else before.with_moves([(colour, turn)])

    def with_moves(self, moves: Iterable[Tuple[str, str]]) -> "Problem":
        """The problem after moves as a record has them, each with its colour."""
        return replace(self, nodes=self.nodes + tuple(move(*each) for each in moves))

    def anew(self) -> "Problem":
        """The position set up anew: what was there before may be repeated."""
        return replace(self, nodes=(set_up(*self.position()),))

    def with_other_side(self) -> "Problem":
        """The problem in which the other side begins."""
        return self.after(PASS)

    def with_stones(self, colour: str, points: Iterable[str]) -> "Problem":
        """The problem with stones that were there from the beginning."""
        first = self.nodes[0] if self.nodes and not self.nodes[0].has(*MOVES) else None
        added = Node(list(first.properties) if first else []).add("A" + colour, *points)
        if not first and not added.has("PL"):
            added.add("PL", "B")
        return replace(self, nodes=(added,) + self.nodes[1 if first else 0 :])

    def point(self, turn: str) -> str:
        """A turn as editors name it."""
        return editor_name(turn, self.rows)

    def points(self, turns: Iterable[str]) -> str:
        return ", ".join(map(self.point, turns))

    def side(self, colour: str) -> str:
        return NAMES[colour]


def set_up(board: Board, to_move: str) -> Node:
    """The position of a board without a history."""
    return Node().add("AB", *board.of("B")).add("AW", *board.of("W")).add("PL", to_move)


def move(colour: str, turn: str) -> Node:
    """The node of a move."""
    return Node([(colour, ["" if turn == PASS else turn])])


def moves_of(nodes: Iterable[Node]) -> List[Tuple[str, str]]:
    """The moves of nodes, each with its colour."""
    found = [(colour, node.first(colour).strip()) for node in nodes for colour in MOVES if node.has(colour)]
    return [(colour, PASS if value in ("", "tt") else value) for colour, value in found]


def name_of(nodes: List[Node]) -> Tuple[str, str]:
    """The problem's name (GN), and the comment at its position."""
    charset = nodes[0].first("CA")
    comments = [node.first("C") for node in nodes if node.has("C")]
    name = " ".join(plain(nodes[0].first("GN"), charset).split())
    return "".join(filter(str.isprintable, name)), plain(comments[-1], charset).strip() if comments else ""


def problem_of(tree: GameTree) -> Problem:
    """The problem of a tree: its main line up to the first node with TR, or without TR up to the node that `--mark` would mark, which
    is the one before the first move behind AB or AW, or else the last. Then it has no targets yet.

    Raises ValueError where a value can't be read; what else is wrong with a tree the programs say.
    """
    line = main_line(tree)
    at = asked_at(line)
    columns, rows = size_of(line[0])
    name, comment = name_of(line[: at + 1])
    kept = [Node([(each, values) for each, values in node.properties if short(each) in SETUP + MOVES + ("PL",)]) for node in line[: at + 1]]
    targets, region = (points_of(line[at].values(mark), columns, rows) for mark in ("TR", "SQ"))
    problem = Problem(columns, rows, tuple(node for node in kept if node.properties), tuple(targets), tuple(region), name, comment)
    problem.position()
    return problem


def asked_at(line: List[Node]) -> int:
    """Which node of a main line has the marks, or would get them."""
    marked = [at for at, node in enumerate(line) if node.has("TR")]
    if marked:
        return marked[0]
    setups = [at for at, node in enumerate(line) if node.has("AB", "AW")]
    moves = [at for at, node in enumerate(line) if node.has(*MOVES) and setups and at > setups[0]]
    return moves[0] - 1 if moves else len(line) - 1


def chapter(tree: GameTree) -> List[GameTree]:
    """The problems of a tree: itself, or its variations where all of them set up stones, as those of a chapter do. Each then stands
    behind the nodes in front of it, and a size of its first node moves to the root."""
    if len(tree.variations) < 2 or not all(each.nodes and each.nodes[0].has("AB", "AW") for each in tree.variations):
        return [tree]
    found: List[GameTree] = []
    for each in tree.variations:
        nodes, first = [Node(list(node.properties)) for node in tree.nodes], each.nodes[0]
        if first.has("SZ"):
            nodes[0] = nodes[0].without("SZ").add("SZ", *first.values("SZ"))
        found.extend(chapter(GameTree(nodes + [first.without("SZ")] + each.nodes[1:], each.variations)))
    return found
