"""What the programs say of problems, as data."""
from dataclasses import dataclass
from typing import Optional, Tuple

from .problems import Problem
from .strategy import Strategy

__all__ = [
    "Answer", "Closing", "KILLED", "Ko", "LIVES", "NO_MARKS", "NO_TREE", "REFUSED", "REPEATS", "TARGET_TAKEN", "Turn", "UNSETTLED", "Verdict",
    "refused", "verdict_of", "winner_of",
]

KILLED, LIVES, UNSETTLED, REFUSED = "killed", "lives", "unsettled", "refused"
# The numbers of some refusals, as a verdict has them. A turn that takes a target wins for the attacker at once: then the triangle stands on
# no stone.
NO_TREE, REPEATS, NO_MARKS, TARGET_TAKEN = "1", "17", "20", "22"


@dataclass(frozen=True)
class Verdict:
    """A line of `solve`. `turn` is a first turn that wins, if there is one; `detail` says why a problem is unsettled (`budget`, `time`,
    `memory`, ..) or refused (a number)."""

    word: str
    turn: Optional[str] = None
    detail: str = ""

    @property
    def is_settled(self) -> bool:
        return self.word in (KILLED, LIVES)


def verdict_of(line: str) -> Verdict:
    """The verdict of a line, behind its number or its turn: `1 killed ca`, `1 lives`, `1 unsettled budget`, `1 refused 20`."""
    word, _, rest = line.partition(" ")[2].partition(" ")
    return Verdict(word, rest or None) if word in (KILLED, LIVES) else Verdict(word, None, rest)


def winner_of(problem: Problem, verdict: Verdict) -> Optional[str]:
    """The colour that wins, `B` or `W`, where it is known. `verdict` is of the problem, or of one after some of its turns."""
    if verdict.word == LIVES:
        return problem.defender
    return problem.attacker if verdict.word == KILLED or (verdict.word, verdict.detail) == (REFUSED, TARGET_TAKEN) else None


@dataclass(frozen=True)
class Turn:
    """A first turn of the side to move: whether it wins (None: unknown), what refutes it where it fails (a turn, or None where it fails at
    once), and the winner's strategy after it, if it was asked for and found."""

    turn: str
    wins: Optional[bool]
    refutation: Optional[str] = None
    strategy: Optional[Strategy] = None


@dataclass(frozen=True)
class Closing:
    """Stones that close an open wall, and who then wins with each side to begin: the side to move, and the other."""

    stones: Tuple[str, ...]
    problem: Problem
    verdict: Verdict
    if_other_begins: Verdict


@dataclass(frozen=True)
class Ko:
    """Whether a ko decides: `decides` is None where that couldn't be tried or wasn't settled. With so many `threats` the loser wins, or
    loses still; 0 where the winner's strategy shows that it loses with any number. `tried` are the problems that say so."""

    decides: Optional[bool]
    threats: int
    tried: Tuple[Problem, ...]


@dataclass(frozen=True)
class Answer:
    """All that was asked about one problem.

    `verdict.word` is killed, lives, unsettled or refused; `why` says more of the latter two. `turns` has the first turns row by row.
    `if_other_begins` is the verdict where the other side begins. `closings` has the ways in which an open wall was closed: the first is the
    one that `problem`, `verdict` and `turns` are about. `ko` says whether a ko decides the verdict.
    """

    name: str
    verdict: Verdict
    problem: Optional[Problem] = None
    turns: Tuple[Turn, ...] = ()
    if_other_begins: Optional[Verdict] = None
    closings: Tuple[Closing, ...] = ()
    ko: Optional[Ko] = None
    why: str = ""
    notes: Tuple[str, ...] = ()
    seconds: float = 0.0

    @property
    def winning(self) -> Tuple[str, ...]:
        """The first turns that win."""
        return tuple(each.turn for each in self.turns if each.wins)

    @property
    def failing(self) -> Tuple[Turn, ...]:
        return tuple(each for each in self.turns if each.wins is False)

    @property
    def unknown(self) -> Tuple[str, ...]:
        return tuple(each.turn for each in self.turns if each.wins is None)

    @property
    def closings_agree(self) -> bool:
        """Whether all closings give the same verdict, whoever begins."""
        return len({(each.verdict.word, each.if_other_begins.word) for each in self.closings}) <= 1

    @property
    def winner(self) -> Optional[str]:
        """The colour that wins, `B` or `W`, where it is known."""
        return winner_of(self.problem, self.verdict) if self.problem else None

    @property
    def is_mover_winner(self) -> bool:
        return self.problem is not None and self.winner == self.problem.to_move


def refused(why: str, number: str = NO_TREE, name: str = "") -> Answer:
    """The answer to what is no problem."""
    return Answer(name, Verdict(REFUSED, None, number), why=why)
