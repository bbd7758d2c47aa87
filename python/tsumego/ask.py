"""tsumego-ask: answers life-and-death problems as a book prints them.

For each problem it says who wins, which first moves win, what refutes the others, and who wins if the other side begins. Points are
named as editors do. A problem needs no marks: name a stone of the group, or let the program take a group. If the wall is open, it is
closed in every way that tsumego-show names.

FILE is a file in SGF, also of many problems, or - for standard input. STONE is C18 or, as in SGF, cb.

The status is 0 if each problem was settled, 1 if one is open or was refused, and 2 if nothing could be done.
"""
import argparse
import gc
import json
import os
import shutil
import sys
from typing import IO, Callable, List, Optional, Union

from .answers import Answer, Turn, Verdict, refused
from .asking import SECONDS, answer, with_strategies
from .command import Parser, seconds, status_of
from .inputs import Input, UsageError, files_and_stone, read_file
from .marking import Marked
from .problems import Problem
from .programs import in_parallel, program
from .report import answer_card, page
from .sgf import to_text, write_bytes
from .solution import solution
from .words import as_data, heading, outcome, said, shown

__all__ = ["main"]


def parser() -> Parser:
    usage = "tsumego-ask FILE.. [STONE] [-o OUT.sgf] [--html OUT] [--json] [--seconds N]"
    made = Parser("tsumego-ask", usage, __doc__)
    made.add_argument("words", nargs="*", help=argparse.SUPPRESS)
    made.add_argument("-o", dest="out", metavar="OUT.sgf", help="write the answers as SGF too, each first move as a variation")
    made.add_argument("--html", metavar="OUT", help="write the answers as a page with pictures too")
    made.add_argument("--json", action="store_true", help="write a JSON object in a line for each problem")
    made.add_argument("--seconds", type=seconds, default=SECONDS, metavar="N", help=f"how long a problem may take ({SECONDS:.0f})")
    return made


class Asking:
    """A run: what was asked, and where the answers go."""

    def __init__(self, stone: Optional[str], args: argparse.Namespace, out: Optional[IO[bytes]]) -> None:
        self.stone, self.limit, self.is_json, self.out, self.has_cards = stone, args.seconds, args.json, out, bool(args.html)
        self.is_settled = True
        self.cards: List[str] = []

    def ask(self, given: Input) -> None:
        """Answers one problem, and writes the answer wherever it is wanted before the next one begins."""
        name = heading(given.file, given.number if given.count > 1 else 0, "")
        self.progress(f"{name} of {given.count} ..." if given.count > 1 else f"{name} ...")
        try:
            found = answer(given.tree, self.stone, self.limit, self.tell_of(name)) if given.tree else refused(given.fault)
        finally:
            self.progress("")
        self.is_settled = self.is_settled and found.verdict.is_settled
        name = heading(given.file, given.number if given.count > 1 else 0, found.name)
        if self.has_cards:
            self.cards.append(answer_card(name, found))
        if self.is_json:
            print(json.dumps(as_data(given.file, given.number, found)), flush=True)
        else:
            print("\n  ".join([name] + said(found)), flush=True)
        if self.out and given.tree:
            tree = solution(with_strategies(found, self.limit)) if found.problem else given.tree
            self.out.write(write_bytes(to_text(tree)) + b"\n")
            self.out.flush()

    def tell_of(self, name: str) -> Callable[[Union[Marked, Verdict, Turn]], None]:
        """Says who wins as soon as that is known: what becomes of the other first turns can take longer."""
        problem: Optional[Problem] = None

        def tell(part: Union[Marked, Verdict, Turn]) -> None:
            nonlocal problem
            if isinstance(part, Marked):
                problem = part.ways[0][1]
            elif isinstance(part, Verdict) and part.is_settled:
                first = (Turn(part.turn, True),) if part.turn else ()
                self.progress(f"{outcome(Answer('', part, problem, first))} ({name}, the other moves ...)")

        return tell

    def progress(self, words: str) -> None:
        """On a terminal one line of standard error says what is being done."""
        if sys.stderr.isatty():
            sys.stderr.write(f"\r\033[K{words[: shutil.get_terminal_size().columns - 1]}")
            sys.stderr.flush()


def run(args: argparse.Namespace) -> int:
    """Asks all problems of the files; returns the status."""
    files, stone = files_and_stone(args.words)
    for written in (each for each in (args.out, args.html) if each):
        if any(os.path.exists(written) and file != "-" and os.path.samefile(file, written) for file in files):
            raise UsageError(f"{shown(written)} is one of the files to read: name another one to write")
    if args.out and args.html and os.path.abspath(args.out) == os.path.abspath(args.html):
        raise UsageError(f"{shown(args.out)} can't be the SGF and the HTML at once")
    given = [each for file in files for each in read_file(file)]
    # (both are looked for at once, which takes a while in a repository)
    in_parallel(program, ["tsumego", "tsumego-show"])
    with open(args.out or os.devnull, "wb") as out:
        asking = Asking(stone, args, out if args.out else None)
        try:
            for each in given:
                asking.ask(each)
        finally:
            if args.html:
                with open(args.html, "w", encoding="utf-8") as html:
                    html.write(page(" ".join(map(shown, files)), asking.cards))
    return 0 if asking.is_settled else 1


def main(words: Optional[List[str]] = None) -> int:
    """Runs the command; returns its status."""
    # Strategies are many objects, of which none is garbage.
    gc.set_threshold(100_000)
    args = parser().parse_args(words)
    if not args.words and not sys.stdin.isatty():
        args.words = ["-"]
    return status_of("tsumego-ask", lambda: run(args), "what was written until now stays")


if __name__ == "__main__":
    sys.exit(main())
