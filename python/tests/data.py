"""Problems whose answers come from books and from certified suites."""
from pathlib import Path
from typing import List

TESTS = Path(__file__).resolve().parents[2] / "tests"

# Three problems as a book prints them: stones, and walls that are open.
FIVE = "(;GM[1]FF[4]SZ[19]GN[Five on the second line in the corner]PL[B]\nAW[ab][bb][cb][db][eb]\nAB[ac][bc][cc][dc][ec][fb])\n"
TRIPOD = "(;GM[1]FF[4]SZ[19]GN[The tripod group]PL[B]\nAW[cb][bc][cc]\nAB[db][dc][cd][bd][fc][ce])\n"
CORNER = "(;GM[1]FF[4]SZ[19]GN[Corner with a stone on the edge]PL[B]\nAW[ca][db][bc][cc][dc]\nAB[eb][ec][bd][cd][dd])\n"


def rows(name: str) -> List[List[str]]:
    """The rows of a table of tests/."""
    return [line.split("\t") for line in (TESTS / name).read_text().splitlines()]


# name, verdict, marks, text without them
SHAPES = rows("unmarked.tsv")
# name, verdict, text
SUITE = rows("life_and_death.tsv")
# A lone stone on an empty board: nobody settles it soon.
OPEN = "(;GM[1]FF[4]SZ[19]PL[B]AW[jj]TR[jj]SQ[aa:ss])"
