"""Points by their two names: SGF's letters (`ca`, column and row from the upper left) and editors' (`C7`, columns without I,
rows from below). A turn is a point in SGF's letters, or `pass`."""
import re
from typing import Iterable, List, Tuple

COLUMNS = "ABCDEFGHJKLMNOPQRST"
PASS = "pass"
_SGF, _EDITOR = re.compile("[a-s]{2}"), re.compile("([A-HJ-Ta-hj-t])([1-9][0-9]?)")


def sgf_name(column: int, row: int) -> str:
    """The point as SGF names it; column and row count from 0, at the upper left."""
    return chr(97 + column) + chr(97 + row)


def place(point: str) -> Tuple[int, int]:
    """Column and row, from 0."""
    return ord(point[0]) - 97, ord(point[1]) - 97


def in_rows(points: Iterable[str]) -> List[str]:
    """The points row by row, from the upper left."""
    return sorted(points, key=lambda point: point[::-1])


def editor_name(turn: str, rows: int) -> str:
    """`ca` on a board of 7 rows is `C7`; what is no point, as `pass`, stays as it is."""
    if not _SGF.fullmatch(turn):
        return turn
    column, row = place(turn)
    return f"{COLUMNS[column]}{rows - row}"


def is_point(word: str) -> bool:
    """Whether a word names a point of some board, in either way."""
    return bool(_SGF.fullmatch(word) or _EDITOR.fullmatch(word))


def read_point(word: str, columns: int, rows: int) -> str:
    """A point as SGF names it, of a word that names it in either way: `C7`, `c7`, `ca`.

    Raises ValueError where the word is no point of the board.
    """
    word = word.strip()
    if _SGF.fullmatch(word):
        column, row = place(word)
    else:
        found = _EDITOR.fullmatch(word)
        if not found:
            raise ValueError(f"{word} is no point: write it as C18 (there is no column I) or as SGF does, as cb")
        column, row = COLUMNS.index(found[1].upper()), rows - int(found[2])
    if not (0 <= column < columns and 0 <= row < rows):
        raise ValueError(f"{word} isn't on the board of {columns} by {rows}")
    return sgf_name(column, row)
