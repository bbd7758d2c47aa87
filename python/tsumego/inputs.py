"""The problems of files: each tree of a file, and each problem of a chapter."""
import os
import re
import sys
from dataclasses import dataclass
from typing import List, Optional, Tuple

from .points import is_point
from .problems import chapter
from .sgf import GameTree, SgfError, read_bytes, trees_of
from .words import shown

__all__ = ["Input", "UsageError", "files_and_stone", "read_file"]


class UsageError(ValueError):
    """Words of a command line that nothing can be done with."""


@dataclass(frozen=True)
class Input:
    """A problem of a file: the file's name, the problem's number from 1, how many the file has, and its tree; or why there is none."""

    file: str
    number: int
    count: int
    tree: Optional[GameTree]
    fault: str = ""


def files_and_stone(words: List[str]) -> Tuple[List[str], Optional[str]]:
    """Files, and the stone that a word names which is no file. Raises UsageError where a word is neither."""
    files = [word for word in words if word == "-" or os.path.exists(word)]
    others = [word for word in words if word not in files]
    wrong = [word for word in others if not is_point(word)]
    if wrong and re.fullmatch("[A-Za-z][0-9]+", wrong[0]):
        raise UsageError(f"{wrong[0]} is no file and no point: a point is written as C18 (there is no column I), or as cb")
    if wrong:
        raise UsageError(f"there is no file {shown(wrong[0])}")
    if len(others) > 1:
        raise UsageError(f"several stones are named: {' '.join(others)}; one names the group")
    if not files:
        raise UsageError("no FILE is named; - is standard input")
    return files, others[0] if others else None


def read_file(file: str) -> List[Input]:
    """The problems of a file in their order; behind them the fault, where the rest can't be read. Raises UsageError where the file can't be."""
    try:
        if file == "-":
            data = sys.stdin.buffer.read()
        else:
            with open(file, "rb") as opened:
                data = opened.read()
    except OSError as fault:
        raise UsageError(f"{shown(file)}: {fault.strerror}") from fault
    wrong: Optional[SgfError] = None
    try:
        trees = trees_of(read_bytes(data))
    except SgfError as fault:
        trees, wrong = fault.trees, fault
    problems = [each for tree in trees for each in chapter(tree)]
    count = len(problems) + (wrong is not None)
    found = [Input(file, number, count, tree) for number, tree in enumerate(problems, 1)]
    return found + ([Input(file, count, count, None, str(wrong))] if wrong else [])
