"""A worker of `tsumego-serve`: answers one problem on standard input by the package, and writes each part as a JSON line as soon as it is known.

    python3 -m tsumego.telling ask|mark|solution [--stone STONE] [--seconds N] [--positions N]

`ask` tells the problem, the verdict, each first turn, and then the whole answer. `mark` tells each way to mark the problem, with an open wall closed.
`solution` tells the answer as one game tree. A line is an object whose `event` says what it tells: problem, verdict, turn, answer, marks, solution;
or refused, with `why`. Points are named as editors do.
"""
import argparse
import json
import sys
from typing import Any, Dict, List, Optional, Tuple, Union

from . import solving
from .answers import NO_TREE, UNSETTLED, Turn, Verdict
from .asking import SECONDS, answer, with_strategies
from .command import status_of
from .marking import Marked, Refused, marked
from .problems import Problem, chapter
from .sgf import GameTree, SgfError, read_bytes, to_text, trees_of, write_bytes
from .solution import solution
from .words import as_data, said

__all__ = ["main"]


def tell(event: str, **data: Any) -> None:
    print(json.dumps({"event": event, **data}), flush=True)


class Telling:
    """Tells parts of an answer as they come in."""

    def __init__(self) -> None:
        self.problem: Optional[Problem] = None

    def __call__(self, part: Union[Marked, Verdict, Turn]) -> None:
        if isinstance(part, Marked):
            stones, self.problem = part.ways[0]
            tell("problem", ways=len(part.ways), **way(stones, self.problem))
            return
        assert self.problem
        if isinstance(part, Verdict):
            tell("verdict", verdict=part.word, detail=part.detail, turn=self.problem.point(part.turn) if part.turn else None)
        else:
            tell("turn", **turn_data(self.problem, part))


def way(stones: Tuple[str, ...], problem: Problem) -> Dict[str, Any]:
    """A way to mark a problem: the stones that close its wall, and the problem with them and its marks."""
    return {"stones": list(map(problem.point, stones)), "sgf": text_of(GameTree(problem.marked_nodes())), "points": len(problem.region)}


def turn_data(problem: Problem, turn: Turn) -> Dict[str, Any]:
    return {"turn": problem.point(turn.turn), "wins": turn.wins, "refutation": problem.point(turn.refutation) if turn.refutation else None}


def text_of(tree: GameTree) -> str:
    """The tree as a text that JSON can hold."""
    return write_bytes(to_text(tree)).decode("utf-8", "replace")


def ask(tree: GameTree, stone: Optional[str], seconds: float) -> None:
    found = answer(tree, stone, seconds, Telling())
    turns = [turn_data(found.problem, each) for each in found.turns] if found.problem else []
    cause = found.verdict.detail if found.verdict.word == UNSETTLED else None
    tell("answer", lines=said(found), turns=turns, cause=cause, **as_data("", 1, found))


def mark(tree: GameTree, stone: Optional[str], _: float) -> None:
    found = marked(tree, stone)
    tell("marks", ways=[way(*each) for each in found.ways], hints=list(found.hints))


def make_solution(tree: GameTree, stone: Optional[str], seconds: float) -> None:
    found = answer(tree, stone, seconds / 2)
    if found.problem is None:
        tell("refused", number=int(found.verdict.detail), why=found.why)
    else:
        tell("solution", sgf=text_of(solution(with_strategies(found, seconds / 2))), lines=said(found))


KINDS = {"ask": ask, "mark": mark, "solution": make_solution}


def run(args: argparse.Namespace) -> int:
    solving.limit_positions(args.positions)
    try:
        tree = chapter(trees_of(read_bytes(sys.stdin.buffer.read()))[0])[0]
        KINDS[args.kind](tree, args.stone, args.seconds)
    except (SgfError, Refused) as fault:
        tell("refused", number=int(fault.number if isinstance(fault, Refused) else NO_TREE), why=str(fault), lines=[f"Refused: {fault}."])
    return 0


def main(words: Optional[List[str]] = None) -> int:
    parser = argparse.ArgumentParser(prog="telling")
    parser.add_argument("kind", choices=sorted(KINDS))
    parser.add_argument("--stone")
    parser.add_argument("--seconds", type=float, default=SECONDS)
    parser.add_argument("--positions", type=int, default=solving.MOST_POSITIONS)
    args = parser.parse_args(words)
    return status_of("telling", lambda: run(args), "")


if __name__ == "__main__":
    sys.exit(main())
