"""A position as a picture (SVG): the part of the board where stones and marks are, with editors' coordinates."""
from html import escape
from typing import Dict, List, Optional, Sequence, Tuple

from .board import BLACK, Board
from .points import COLUMNS, place

__all__ = ["diagram"]

CELL = 24
WOOD, INK, PAPER = "#f0d9a8", "#111", "#fff"
# So near an edge the picture goes to the edge.
NEAR = 3


def diagram(board: Board, targets: Sequence[str] = (), labels: Optional[Dict[str, Tuple[str, str]]] = None) -> str:
    """The picture of a board. `targets` get triangles; `labels` are short texts with a colour, by point."""
    labels = labels or {}
    used = list(map(place, [*board.stones, *targets, *labels])) or [(0, 0), (board.columns - 1, board.rows - 1)]
    left, right = _window([column for column, _ in used], board.columns)
    top, bottom = _window([row for _, row in used], board.rows)
    parts = _lines(board, left, right, top, bottom)
    for point in sorted({*board.stones, *labels, *targets}):
        column, row = place(point)
        parts.append(_point(board, point, (column - left + 1.5) * CELL, (row - top + 0.5) * CELL, point in targets, labels.get(point)))
    width, height = (right - left + 2) * CELL, (bottom - top + 2) * CELL
    return f'<svg xmlns="http://www.w3.org/2000/svg" viewBox="0 0 {width} {height}" width="{width}" height="{height}" font-family="sans-serif">{"".join(parts)}</svg>'


def _window(used: List[int], count: int) -> Tuple[int, int]:
    """The first and the last line that is shown: all that are used and one more, or up to an edge that is near."""
    first, last = min(used) - 1, max(used) + 1
    return 0 if first < NEAR else first, count - 1 if last >= count - NEAR else last


def _lines(board: Board, left: int, right: int, top: int, bottom: int) -> List[str]:
    """The wood, the lines, half a cell past the window where the board goes on, and the coordinates."""
    wide, high = (right - left + 1) * CELL, (bottom - top + 1) * CELL
    parts = [f'<rect x="{CELL}" width="{wide}" height="{high}" fill="{WOOD}"/>']
    x0, x1 = (CELL * (1.5 if left == 0 else 1)), CELL * (right - left + (1.5 if right == board.columns - 1 else 2))
    y0, y1 = (CELL * (0.5 if top == 0 else 0)), CELL * (bottom - top + (0.5 if bottom == board.rows - 1 else 1))
    for row in range(top, bottom + 1):
        y = (row - top + 0.5) * CELL
        parts.append(f'<path d="M{x0:g} {y:g}H{x1:g}" stroke="{INK}"/>')
        parts.append(f'<text x="{CELL / 2:g}" y="{y + 4:g}" font-size="11" text-anchor="middle">{board.rows - row}</text>')
    for column in range(left, right + 1):
        x = (column - left + 1.5) * CELL
        parts.append(f'<path d="M{x:g} {y0:g}V{y1:g}" stroke="{INK}"/>')
        parts.append(f'<text x="{x:g}" y="{high + CELL * 0.7:g}" font-size="11" text-anchor="middle">{COLUMNS[column]}</text>')
    return parts


def _point(board: Board, point: str, x: float, y: float, is_target: bool, label: Optional[Tuple[str, str]]) -> str:
    """What stands on a point: a stone, a triangle, a label."""
    stone, parts = board.stones.get(point), ""
    if stone:
        parts += f'<circle cx="{x:g}" cy="{y:g}" r="{CELL * 0.46:g}" fill="{INK if stone == BLACK else PAPER}" stroke="{INK}"/>'
    on = PAPER if stone == BLACK else INK
    if is_target:
        parts += f'<path d="M{x:g} {y - 7:g}L{x + 6:g} {y + 4:g}H{x - 6:g}Z" fill="none" stroke="{on}" stroke-width="1.5"/>'
    if label:
        if not stone:
            parts += f'<circle cx="{x:g}" cy="{y:g}" r="{CELL * 0.4:g}" fill="{label[1]}"/>'
        colour = on if stone else PAPER
        parts += f'<text x="{x:g}" y="{y + 4.5:g}" font-size="12" font-weight="bold" text-anchor="middle" fill="{colour}">{escape(label[0])}</text>'
    return parts
