"""Kos as textbooks know them, and shapes that are none, drawn: the left upper corner of a board of 13 by 13, but for the last one.

X and O are stones, T is the target, white as the defender is; x, o and + lie in the region. `moves` were made from there. What is expected
is what any beginner's book says of such a shape, in the words that stand beside it, and Sensei's Library (senseis.xmp.net) on its pages
Ko, Bent Four in the Corner, Rectangular Six in the Corner, Rectangular Eight in the Corner, Semeai, Double Ko, Seki, L Group and Killable
Eyeshapes. White is the defender.
"""
from typing import List, NamedTuple, Tuple


class Shape(NamedTuple):
    name: str
    words: str
    drawing: str
    to_move: str
    moves: Tuple[str, ...]
    verdict: str
    is_ko: bool
    size: str = "13"

    def text(self) -> str:
        lists = {"AB": "Xx", "AW": "OoT", "TR": "T", "SQ": "xo+"}
        points = {name: [chr(97 + x) + chr(97 + y) for y, row in enumerate(self.drawing.split()) for x, mark in enumerate(row) if mark in marks] for name, marks in lists.items()}
        parts = {name: name + "".join(f"[{point}]" for point in found) for name, found in points.items()}
        marks = parts["TR"] + parts["SQ"]
        played = "".join(f";{move[0]}[{move[1:]}]" for move in self.moves)
        return f"(;SZ[{self.size}]PL[{self.to_move}]{parts['AB']}{parts['AW']}{played}{marks})"


def eye_by_ko(place: str, before: str, taken: str, take: str, back: str) -> List[Shape]:
    """One eye is sure, the other is a ko: White keeps it by taking a stone of Black's wall, which has one liberty left."""
    return [
        Shape(f"a ko for the second eye {place}", "Black takes the ko, and White needs a threat", before, "B", (), "killed", True),
        Shape(f"a ko for the second eye {place}, which Black took", "White needs a threat", before, "B", ("B" + take,), "killed", True),
        Shape(f"a ko for the second eye {place}, which White takes", "White takes the ko, and Black needs a threat", taken, "W", (), "lives", True),
        Shape(f"a ko for the second eye {place}, which White took", "Black needs a threat", taken, "W", ("W" + back,), "lives", True),
    ]


CENTRE, CENTRE_TAKEN = (
    """
    .........
    XXXXX....
    OOOOXOOO.
    O+T+{}+O.
    OOOOXOOO.
    XXXXX....
    """.replace("+{}", middle)
    for middle in ("+ox", "x+x")
)
EDGE, EDGE_TAKEN = (
    """
    +O{}+O..
    OOTXOOO..
    XXXXO....
    """.format(middle)
    for middle in ("+ox", "x+x")
)
CORNER, CORNER_TAKEN = (
    """
    {}+O..
    OXOOO..
    TXX....
    OOX....
    +OX....
    OOX....
    XX.....
    """.format(middle)
    for middle in ("+ox", "x+x")
)
# White's two stones get away if White connects at D1 from above, where a stone of Black's is in a ko.
CONNECTION, CONNECTION_TAKEN = (
    """
    +OT{}OO..
    XXX{}XO..
    XXXXXO...
    """.format(*middle)
    for middle in ("x+", "+o")
)
# If White plays on A2 or D1, Black takes all. If Black plays on A2, White takes four stones, and Black plays on B1: a ko that Black takes
# first. (A1 is the corner.)
BENT_FOUR = """
    xxx+OX
    +OOOOX
    OTXXX.
    XX....
    """
# Black has no liberty left but A10 while White's stone is on the corner, and White none but A10 once Black has taken that stone by B13.
RACE = """
    {}OX.
    xTOX.
    xOX..
    +OX..
    OOX..
    XXX..
    """
# White's wall is one chain. The squares outside it are its outside liberties.
SIX = """
    +++OX
    +++TX
    OOOOX
    XXXXX
    """
SIX_AND_ONE = """
    +++O+X
    +++TXX
    OOOOX.
    XXXXX.
    """
SIX_AND_TWO = """
    +++O+X
    +++TXX
    OOOOX.
    +XXXX.
    X.....
    """
EIGHT_AND_ONE = """
    ++++O+X
    ++++OXX
    TOOOOX.
    XXXXXX.
    """
CORNER_FOUR = """
    +++OX
    +OOTX
    OOXXX
    XXX..
    """
STRAIGHT_FOUR = """
    XO++++OX
    XOOOOTOX
    XXXXXXXX
    """
SQUARE_FOUR = """
    XXXXXX
    XOOOOX
    XO++TX
    XO++OX
    XOOOOX
    XXXXXX
    """
PYRAMID_FOUR = """
    XO+++OX
    XOO+OTX
    .XOOOXX
    .XXXXX.
    """
BULKY_FIVE = """
    .XXXXXX
    .XOOOOX
    .XO+++TX
    .XO++OOX
    .XOOOOXX
    .XXXXX.
    """
RABBITY_SIX = """
    .XXXXXX.
    .XOO+OOX
    .XO+++TX
    .XO++OOX
    .XOOOOXX
    .XXXXXX.
    """
L_GROUP = """
    +++X
    ++OX
    OOTX
    XXXX
    """
# One eye is sure, and each of two kos gives another one. White holds the left ko, Black the right one.
DOUBLE_KO = """
    .............
    ...XXXXXXX...
    OOOXOOOOOXOOO
    O+xo+T+Ox+x+O
    OOOXOOOOOXOOO
    ...XXXXXXX...
    """



KOS = [
    *eye_by_ko("in the centre", CENTRE, CENTRE_TAKEN, "dd", "ed"),
    *eye_by_ko("on the edge", EDGE, EDGE_TAKEN, "ca", "da"),
    *eye_by_ko("in the corner", CORNER, CORNER_TAKEN, "aa", "ba"),
    Shape("a ko for a connection", "White takes the ko, and Black needs a threat", CONNECTION, "W", (), "lives", True),
    Shape("a ko for a connection, which White took", "Black needs a threat", CONNECTION, "W", ("Wdb",), "lives", True),
    Shape("a ko for a connection, which Black took", "White needs a threat", CONNECTION_TAKEN, "B", ("Bda",), "killed", True),
    Shape("a race", "Black takes the ko and has them in atari, and White needs a threat", RACE.format("o+"), "B", (), "killed", True),
    Shape("a race, in which Black took the ko", "White needs a threat", RACE.format("o+"), "B", ("Bba",), "killed", True),
    Shape("a race, in which White took the ko", "Black needs a threat", RACE.format("+x"), "W", ("Waa",), "lives", True),
    Shape("the rectangular six with one outside liberty", "ko", SIX_AND_ONE, "B", (), "killed", True),
    Shape("four points bent at the corner, without outside liberties", "Black plays B13, and it is a ko", CORNER_FOUR, "B", (), "killed", True),
    Shape("bent four in the corner", "Black makes a ko, and takes it first", BENT_FOUR, "B", (), "killed", True),
    Shape("bent four in the corner, White to move", "White can do nothing, and Black makes the ko", BENT_FOUR, "W", (), "killed", True),
]
NO_KOS = [
    Shape("a connection that is cut", "Black takes the two stones at once", CONNECTION, "B", (), "killed", False),
    Shape("a race that White begins", "White takes Black's stones at once", RACE.format("o+"), "W", (), "lives", False),
    Shape("seki", "neither side can fill one of the two liberties", "+OOOT XXXX+", "B", (), "lives", False, "5:2"),
    Shape("a double ko", "if Black takes one ko, White takes the other one", DOUBLE_KO, "B", (), "lives", False),
    Shape("the rectangular six without outside liberties", "dead", SIX, "B", (), "killed", False),
    Shape("the rectangular six with two outside liberties", "alive", SIX_AND_TWO, "B", (), "lives", False),
    Shape("the rectangular eight", "alive", EIGHT_AND_ONE, "B", (), "lives", False),
    Shape("a straight four", "alive", STRAIGHT_FOUR, "B", (), "lives", False),
    Shape("a square four", "dead", SQUARE_FOUR, "W", (), "killed", False),
    Shape("a pyramid four", "Black plays its middle", PYRAMID_FOUR, "B", (), "killed", False),
    Shape("a bulky five", "Black plays its middle", BULKY_FIVE, "B", (), "killed", False),
    Shape("a rabbity six", "Black plays its middle", RABBITY_SIX, "B", (), "killed", False),
    Shape("the L group", "dead, even if White begins", L_GROUP, "W", (), "killed", False),
]
