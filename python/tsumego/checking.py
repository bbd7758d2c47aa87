"""Checks the solution that a file gives: each line that it calls right keeps the win, and each that it calls wrong loses.

A line leads from the problem to a leaf. It is wrong if a node of it has BM or a word as `Wrong`, and right if one has TE or a word as
`Correct` or goproblems' RIGHT. If some line is called right, the others are wrong; if some are called wrong alone, the others are
right. If none has such a word, the main line is right, with all answers of the other side; nothing is said of other lines.
"""
import itertools
import re
from dataclasses import dataclass
from typing import Dict, Iterator, List, Optional, Tuple

from .answers import LIVES, REFUSED, TARGET_TAKEN, Answer, Verdict, winner_of
from .board import NAMES
from .points import PASS, read_point
from .problems import MOVES, SETUP, Problem, asked_at, moves_of
from .sgf import GameTree, Node, main_line, plain
from .solving import Clock, verdict
from .words import listed

__all__ = ["Line", "faults", "lines_of"]

# (no question counts)
WRONG = re.compile(r"\b(wrong|incorrect|fail(s|ed|ure)?)\b(?![^.!\n]*\?)|失败|失敗|错|不正解", re.I)
RIGHT = re.compile(r"\b(right|correct|success)\b(?![^.!\n]*\?)|(?<!不)正解|(?<!不)正确|正確|成功", re.I)
STATUS = re.compile(r"\b(alive|dead)\b[^.]*\?|\bstatus\b|\bdead or alive\b|\balive or dead\b|死活\?", re.I)


@dataclass(frozen=True)
class Line:
    """Moves behind the problem, and what the file says of them: True for right, False for wrong, None for nothing."""

    moves: Tuple[Tuple[str, str], ...]
    is_right: Optional[bool]


def lines_of(tree: GameTree, solver: str) -> List[Line]:
    """The lines behind the problem's node, up to a node that sets up stones."""
    at = asked_at(main_line(tree))
    found = [(_moves(nodes), _said(nodes, solver), is_main) for nodes, is_main in _paths(tree, at + 1)]
    said = {word for _, word, _ in found}
    lines = []
    for moves, word, is_main in found:
        if word is None:
            word = False if True in said else True if False in said or is_main else None
        if moves:
            lines.append(Line(moves, word))
    return lines


def _paths(tree: GameTree, skip: int) -> Iterator[Tuple[List[Node], bool]]:
    """The nodes from there to each leaf, and whether only the first variation of the solver's choices is followed."""
    waiting: List[Tuple[GameTree, List[Node], bool]] = [(tree, [], True)]
    while waiting:
        each, nodes, is_main = waiting.pop()
        nodes = nodes + each.nodes
        if not each.variations:
            yield nodes[skip:], is_main
        for number, variation in reversed(list(enumerate(each.variations))):
            waiting.append((variation, nodes, is_main and number == 0))


def _moves(nodes: List[Node]) -> Tuple[Tuple[str, str], ...]:
    """The moves of nodes, up to one that sets up stones."""
    return tuple(moves_of(itertools.takewhile(lambda node: not node.has(*SETUP), nodes)))


def _said(nodes: List[Node], solver: str) -> Optional[bool]:
    """What the nodes of a line say of it."""
    words = [plain(node.first("C")) for node in nodes]
    if any(node.has("BM") for node in nodes) or any(WRONG.search(each) for each in words):
        return False
    if any(node.has("TE") and node.has(solver) for node in nodes) or any(RIGHT.search(each) for each in words):
        return True
    return None


class _Solution:
    """A file's solution, held against the programs."""

    def __init__(self, problem: Problem, solver: str, clock: Clock) -> None:
        self.problem, self.solver, self.clock = problem, solver, clock
        self.known: Dict[Tuple[Tuple[str, str], ...], Verdict] = {}

    def read(self, turn: str) -> Optional[str]:
        """The point of the board that a value names in SGF's letters, or as editors do."""
        try:
            return read_point(turn, self.problem.columns, self.problem.rows)
        except ValueError:
            return None

    def after(self, moves: Tuple[Tuple[str, str], ...]) -> Verdict:
        if moves not in self.known:
            self.known[moves] = verdict(self.problem.with_moves(moves), self.clock)
        return self.known[moves]

    def wins(self, moves: Tuple[Tuple[str, str], ...]) -> Optional[bool]:
        """Whether the solver wins after the moves; None where that isn't known."""
        winner = winner_of(self.problem, self.after(moves))
        return None if winner is None else winner == self.solver

    def fault(self, line: Line) -> Optional[str]:
        """What is wrong with what the file says of a line."""
        name = " ".join(self.problem.point(turn) for _, turn in line.moves)
        for count, (colour, turn) in enumerate(line.moves, 1):
            if turn != PASS and self.read(turn) != turn:
                meant = self.read(turn)
                says = f"is no point in SGF, which writes {colour}[{meant}]" if meant else "is no point of the board"
                return f"{colour}[{turn}], move {count} of a line, {says}"
            found = self.after(line.moves[:count])
            if found.word == REFUSED and found.detail != TARGET_TAKEN:
                return f"the line {name}: move {count}, {self.problem.point(turn)}, can't be played"
            if line.is_right and colour == self.solver and self.wins(line.moves[:count]) is False:
                by = f" to {self.problem.point(found.turn)}" if found.turn else ""
                which = f": move {count}, {self.problem.point(turn)}, loses" if len(line.moves) > 1 else ", for it loses"
                return f"the right line {name} fails{which}{by}"
            if found.word == REFUSED:
                break
        if line.is_right is False and self.wins(line.moves):
            return f"the line {name} is called wrong, but {NAMES[self.solver]} still wins"
        return None


def faults(tree: GameTree, answer: Answer, seconds: float) -> List[str]:
    """What is wrong with a problem and its solution, in words: nothing where all is well."""
    problem = answer.problem
    swallowed = [f"{name} holds (;: is its ] missing, so that a problem was swallowed?" for name in _swallowing(tree)]
    if problem is None:
        return [f"refused: {answer.why}"] + swallowed
    found = swallowed
    if answer.closings[0].stones:
        closed = listed((" ".join(map(problem.point, each.stones)) for each in answer.closings), "or")
        found.append(f"the wall is open: is a stone missing at {closed}?")
    lines = lines_of(tree, problem.to_move)
    begins = {line.moves[0][0] for line in lines}
    if begins and problem.to_move not in begins:
        lacks = "" if any(node.has("PL", *MOVES) for node in problem.nodes) else f": is PL[{min(begins)}] missing?"
        return found + [f"the solution begins with {NAMES[min(begins)]}, but {NAMES[problem.to_move]} is to move{lacks}"]
    if not answer.verdict.is_settled:
        return found + ["who wins wasn't found in time"]
    solution = _Solution(problem, problem.to_move, Clock(seconds))
    wrong = {line: solution.fault(line) for line in lines}
    found += [fault for fault in dict.fromkeys(wrong.values()) if fault]
    if not (STATUS.search(answer.name) or STATUS.search(problem.comment)):
        found += _first_moves(problem, answer, [line for line in lines if line.is_right or wrong[line]])
    return found


def _swallowing(tree: GameTree) -> List[str]:
    """The names of properties with a value that seems to hold the beginning of another tree."""
    return list(dict.fromkeys(name for node in tree.all_nodes() for name, values in node.properties if any("(;" in value for value in values)))


def _first_moves(problem: Problem, answer: Answer, lines: List[Line]) -> List[str]:
    """Whether the problem has other solutions than the lines, which are right or told already."""
    plays = [turn for turn in answer.winning if turn != PASS]
    if not answer.is_mover_winner:
        return [f"no first move wins: {NAMES[problem.to_move]} can't {'live' if problem.to_move == problem.defender else 'kill'}"]
    if PASS in answer.winning or (answer.if_other_begins and answer.if_other_begins.word == answer.verdict.word):
        return [f"no move is needed: the group {'lives' if answer.verdict.word == LIVES else 'is dead'} as it stands"]
    given = {line.moves[0][1] for line in lines}
    if given - {PASS, *problem.position()[0].points()}:
        # (what is no point is told already, and may be the move meant)
        return []
    others = [problem.point(turn) for turn in plays if turn not in given]
    return [f"{'also ' if given else ''}{listed(others)} win{'s' if len(others) == 1 else ''}"] if others and (given or len(others) > 1) else []
