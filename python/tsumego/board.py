"""A board: stones by their points, plays that take stones. The rules are Tromp-Taylor, so suicide of several stones is legal."""
import functools
from typing import Dict, FrozenSet, Iterable, List, Set, Tuple

from .points import PASS, in_rows, sgf_name

BLACK, WHITE = "B", "W"
OTHER = {BLACK: WHITE, WHITE: BLACK}
NAMES = {BLACK: "Black", WHITE: "White"}


@functools.lru_cache(None)
def _near(columns: int, rows: int) -> Dict[str, Tuple[str, ...]]:
    """Of each point of a board, row by row, the points beside it."""

    def beside(x: int, y: int) -> Tuple[str, ...]:
        near = [(x - 1, y), (x, y - 1), (x + 1, y), (x, y + 1)]
        return tuple(sgf_name(*each) for each in near if 0 <= each[0] < columns and 0 <= each[1] < rows)

    return {sgf_name(x, y): beside(x, y) for y in range(rows) for x in range(columns)}


class Board:
    """Stones on a board of so many columns and rows: `stones` maps points in SGF's letters to `B` or `W`."""

    def __init__(self, columns: int, rows: int, stones: Dict[str, str]) -> None:
        self.columns, self.rows, self.stones = columns, rows, dict(stones)

    def points(self) -> Iterable[str]:
        """All points, row by row."""
        return _near(self.columns, self.rows)

    def beside(self, point: str) -> Tuple[str, ...]:
        """The points beside a point."""
        return _near(self.columns, self.rows)[point]

    def chain(self, point: str) -> Set[str]:
        """The stones of the chain at a point."""
        colour, found, waiting = self.stones[point], {point}, [point]
        while waiting:
            for near in self.beside(waiting.pop()):
                if near not in found and self.stones.get(near) == colour:
                    found.add(near)
                    waiting.append(near)
        return found

    def liberties(self, point: str) -> Set[str]:
        """The liberties of the chain at a point."""
        return {near for stone in self.chain(point) for near in self.beside(stone) if near not in self.stones}

    def has_liberty(self, point: str) -> bool:
        """Whether the chain at a point has a liberty."""
        colour, found, waiting = self.stones[point], {point}, [point]
        while waiting:
            for near in self.beside(waiting.pop()):
                stone = self.stones.get(near)
                if stone is None:
                    return True
                if stone == colour and near not in found:
                    found.add(near)
                    waiting.append(near)
        return False

    def chains(self) -> List[Set[str]]:
        """All chains, in the order of their first stones, row by row."""
        found: List[Set[str]] = []
        for stone in in_rows(self.stones):
            if not any(stone in chain for chain in found):
                found.append(self.chain(stone))
        return found

    def play(self, colour: str, turn: str) -> Set[str]:
        """Makes a turn, and returns the stones that it takes: the other side's or, in a suicide, one's own."""
        if turn == PASS:
            return set()
        self.stones[turn] = colour
        taken: Set[str] = set()
        for near in self.beside(turn):
            if self.stones.get(near) == OTHER[colour] and not self.has_liberty(near):
                taken |= self.chain(near)
        if not taken and not self.has_liberty(turn):
            taken = self.chain(turn)
        self.remove(taken)
        return taken

    def remove(self, points: Iterable[str]) -> None:
        for point in points:
            self.stones.pop(point, None)

    def copy(self) -> "Board":
        return Board(self.columns, self.rows, self.stones)

    def key(self) -> FrozenSet[Tuple[str, str]]:
        """What is the same for equal positions alone."""
        return frozenset(self.stones.items())

    def of(self, colour: str) -> List[str]:
        """The stones of a colour, row by row."""
        return in_rows(each for each in self.stones if self.stones[each] == colour)
