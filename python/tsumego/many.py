"""Many problems at a time: who wins each, as fast as one input through the program."""
import re
from typing import Iterable, Iterator, List, Optional, Tuple, Union

from .answers import NO_TREE, REFUSED, Verdict, verdict_of
from .asking import SECONDS
from .limits import MOST_BYTES
from .programs import JOBS, ProgramError, in_parallel, run
from .sgf import GameTree, SgfError, read_bytes, to_text, trees_of, write_bytes
from .solving import OUT_OF_TIME, POSITIONS, solve_words

__all__ = ["verdicts"]

# So many problems share a process.
BATCH = 250
# A text that is one tree without variations is passed on as it is.
_PLAIN = re.compile(rb"[\t-\r ]*\([\t-\r ]*(?:;[\t-\r ]*(?:[A-Z]+[\t-\r ]*(?:\[[^]\\]*(?:\\.[^]\\]*)*\][\t-\r ]*)+)*)+\)[\t-\r ]*", re.DOTALL)
Indexed = Tuple[int, bytes]


def verdicts(problems: Iterable[Union[str, bytes, GameTree]], seconds: float = SECONDS, positions: int = POSITIONS, jobs: int = JOBS) -> List[Verdict]:
    """Who wins each of many problems that have marks, in their order. Each text is one problem in SGF: a second tree of it isn't read.

    A text that is no problem gets `refused` and hurts no neighbour. `seconds` bounds a problem that is asked alone: many in one process have
    twice as long together, and the one that it was at then is asked again alone. `positions` bounds those that df-pn visits, `jobs` the
    processes side by side. Raises ProgramError where the program isn't there.
    """
    found: List[Verdict] = []

    def texts() -> Iterator[Indexed]:
        # (read while the program is at those in front)
        for number, problem in enumerate(problems):
            found.append(Verdict(REFUSED, None, NO_TREE))
            text = _first_tree(problem)
            if text:
                yield number, text + b"\n"

    for rows in in_parallel(lambda batch: _asked(batch, seconds, positions), _batches(texts()), jobs):
        for number, verdict in rows:
            found[number] = verdict
    return found


def _first_tree(problem: Union[str, bytes, GameTree]) -> Optional[bytes]:
    """The first tree of a text; None where it breaks the grammar."""
    if isinstance(problem, GameTree):
        return write_bytes(to_text(problem))
    data = write_bytes(problem) if isinstance(problem, str) else problem
    if _PLAIN.fullmatch(data):
        return data
    try:
        return write_bytes(to_text(trees_of(read_bytes(data))[0]))
    except SgfError as fault:
        return write_bytes(to_text(fault.trees[0])) if fault.trees else None


def _batches(problems: Iterable[Indexed]) -> Iterator[List[Indexed]]:
    """The problems in lists that an input can hold."""
    batch: List[Indexed] = []
    size = 0
    for each in problems:
        if batch and (len(batch) == BATCH or size + len(each[1]) > MOST_BYTES):
            yield batch
            batch, size = [], 0
        batch.append(each)
        size += len(each[1])
    if batch:
        yield batch


def _asked(batch: List[Indexed], seconds: float, positions: int) -> List[Tuple[int, Verdict]]:
    """The verdicts of problems by one process. If it ends early, the one that it was at gets a process of its own, and the rest another."""
    limit = seconds if len(batch) == 1 else seconds * 2
    try:
        lines = run("tsumego", solve_words(positions), b"".join(text for _, text in batch), limit).text.splitlines()
    except ProgramError:
        if len(batch) == 1:
            raise
        lines = []
    found = [(number, verdict_of(line)) for (number, _), line in zip(batch, lines)]
    rest = batch[len(found) :]
    if not rest:
        return found
    if len(batch) == 1:
        return [(batch[0][0], OUT_OF_TIME)]
    return found + _asked(rest[:1], seconds, positions) + (_asked(rest[1:], seconds, positions) if rest[1:] else [])
