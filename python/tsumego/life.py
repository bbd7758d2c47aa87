"""Stones that nobody can take, even if their side always passes: D. B. Benson, Life in the Game of Go, 1976, and here with a region and
suicide of several stones."""
from typing import List, Sequence, Set, Tuple

from .board import Board

__all__ = ["life"]


def life(board: Board, colour: str, region: Sequence[str] = ()) -> Tuple[Set[str], Set[str]]:
    """The stones of a colour that are unconditionally alive where plays are allowed on the region alone (everywhere, if it is empty),
    and the points of their eyes.

    An eye is an area without stones of the colour that has an empty point. A chain stays that touches an empty point outside the
    region, which nobody can fill, or all points of two eyes whose walls stay. The others are left out, till all stay.
    """
    own = set(board.of(colour))
    areas = _areas(board, {point for point in board.points() if point not in own})
    eyes = [(area, walls) for area, walls in areas if any(point not in board.stones for point in area)]
    chains = _areas(board, own)
    safe = {point for point in board.points() if point not in board.stones and point not in region} if region else set()
    while True:
        eyes = [(area, walls) for area, walls in eyes if walls <= own]
        alive = [(chain, touched) for chain, touched in chains if touched & safe or sum(area <= touched for area, _ in eyes) > 1]
        if len(alive) == len(chains):
            return own, {point for area, _ in eyes if any(area <= touched for _, touched in chains) for point in area}
        chains, own = alive, {stone for chain, _ in alive for stone in chain}


def _areas(board: Board, points: Set[str]) -> List[Tuple[Set[str], Set[str]]]:
    """The points as areas of adjacent ones, each with the points beside it."""
    found, points = [], set(points)
    while points:
        area, beside = [points.pop()], set()
        for point in area:
            for near in board.beside(point):
                if near in points:
                    points.discard(near)
                    area.append(near)
                else:
                    beside.add(near)
        found.append((set(area), beside.difference(area)))
    return found
