"""Marks for a problem without them: the group and its region by `tsumego-show --mark`, and an open wall closed in every way that the
program names."""
import re
from dataclasses import dataclass, replace
from typing import List, Optional, Tuple, Union

from .answers import NO_MARKS
from .points import read_point
from .problems import Problem, asked_at, problem_of
from .programs import in_parallel, run
from .sgf import GameTree, main_line, to_text, trees_of, write_bytes

__all__ = ["Marked", "Refused", "marked", "refusal_of"]

# The stones of the wall that close it: points where one does, or ways with two or three each. More than are listed are counted.
_CLOSES = re.compile(r"(a|two|three) (Black|White) stones? (?:on one of these encloses it|enclose it in one of these ways): (.*?)(?:, and \d+ more)?$")
# The group that may be meant, where nobody named one.
_MAY_BE = re.compile(r"it may be the (?:Black|White) chain of (\w+): ")


class Refused(ValueError):
    """A tree that is no problem, or that can't be marked. The text says why, and where to look; `number` is the refusal's."""

    def __init__(self, words: str, number: str = NO_MARKS) -> None:
        super().__init__(words)
        self.number = number


@dataclass(frozen=True)
class Marked:
    """A problem in each way in which its wall can be closed: the stones that were added, and the problem with them. A closed wall has
    one way, without stones. The program's order stands: the best comes first. `hints` are the program's."""

    ways: Tuple[Tuple[Tuple[str, ...], Problem], ...]
    hints: Tuple[str, ...] = ()


def marked(tree: GameTree, stone: Optional[str] = None) -> Marked:
    """The problem of a tree: around the stone that is named (a point in either spelling), or with its own marks, or around the group
    that the program takes. Raises Refused where the tree is no problem.
    """
    lines = _lines_of(tree)
    fault = _refusal(lines)
    if fault and fault.number != NO_MARKS:
        raise fault
    try:
        problem = problem_of(tree)
        named = read_point(stone, problem.columns, problem.rows) if stone else None
    except ValueError as wrong:
        raise Refused(str(wrong)) from wrong
    if problem.targets and problem.region and not named:
        return Marked((((), problem),), _hints(lines))
    bare = replace(problem, targets=(), region=())
    if problem.targets and not named:
        found = _closed(bare, problem.targets[0])
        ways = tuple((stones, replace(each, targets=problem.targets)) for stones, each in found.ways)
        return Marked(ways, found.hints)
    return _closed(bare, named)


def refusal_of(tree: GameTree) -> Optional[Refused]:
    """Why a tree is no problem with marks; None where it is one."""
    return _refusal(_lines_of(tree))


def _lines_of(tree: GameTree) -> List[str]:
    """What `tsumego-show` says of a tree. What is behind the problem's node, a solution, is no matter."""
    line = main_line(tree)
    return _show(to_text(GameTree(line[: asked_at(line) + 1])), [])[0]


def _show(text: str, words: List[str]) -> Tuple[List[str], str]:
    """What `tsumego-show` says of a tree, and the tree that it writes; without `--mark` it writes none."""
    ended = run("tsumego-show", words, write_bytes(text) + b"\n")
    return (ended.errors.splitlines(), ended.text) if words else (ended.text.splitlines(), "")


def _refusal(lines: List[str]) -> Optional[Refused]:
    """Why a tree was refused, of the program's lines; None where it wasn't."""
    found = next(filter(None, (re.match("[0-9]+ refused ([0-9]+)", line) for line in lines)), None)
    if not found:
        return None
    said = {word: re.sub("=[a-s]{2}", "", rest) for word, _, rest in (line.partition(": ") for line in lines[1:])}
    looks = f"; look at {said['look at']}" if "look at" in said else ""
    return Refused(said.get("why", "it is no problem") + looks, found[1])


def _hints(lines: List[str]) -> Tuple[str, ...]:
    return tuple(re.sub("=[a-s]{2}", "", line[6:]) for line in lines if line.startswith("hint: "))


def _mark(problem: Problem, stone: Optional[str]) -> Tuple[Problem, Tuple[str, ...]]:
    """The problem with the marks that the program proposes, and its hints. Raises Refused where it proposes none."""
    lines, text = _show(problem.text(), ["--mark"] + ([stone] if stone else []))
    fault = _refusal(lines)
    if fault or not text:
        raise fault or Refused("the program proposes no marks")
    found = problem_of(trees_of(text)[0])
    return replace(problem, targets=found.targets, region=found.region), _hints(lines)


def _closed(problem: Problem, stone: Optional[str]) -> Marked:
    """The problem around a stone, or around the group that the program takes; if no group is enclosed, around the one that may be meant. If
    its wall is open, it is closed in each way that the program names."""
    try:
        found, hints = _mark(problem, stone)
        return Marked((((), found),), hints)
    except Refused as fault:
        meant = _MAY_BE.search(str(fault))
        around = stone or (read_point(meant[1], problem.columns, problem.rows) if meant else None)
        ways = _ways(problem, around, str(fault)) if around else ()
        if not ways:
            raise
        return Marked(ways)


def _ways(problem: Problem, stone: str, why: str) -> Tuple[Tuple[Tuple[str, ...], Problem], ...]:
    """The ways to close the wall by the points that the program names; none where it names none."""
    closes = _CLOSES.search(why)
    if not closes:
        return ()
    how_many, colour, words = closes.groups()
    listed = [way.split() for way in (words.split() if how_many == "a" else words.split(", "))]
    ways = [tuple(read_point(word, problem.columns, problem.rows) for word in way) for way in listed]
    found = in_parallel(lambda stones: _marked_or_why(problem.with_stones(colour[0], stones), stone), ways)
    return tuple((stones, each) for stones, each in zip(ways, found) if isinstance(each, Problem))


def _marked_or_why(problem: Problem, stone: str) -> Union[Problem, str]:
    """The problem with marks, or why there are none."""
    try:
        return _mark(problem, stone)[0]
    except Refused as fault:
        return str(fault)
