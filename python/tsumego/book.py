"""tsumego-book: checks a book of problems with its solutions, and writes a report.

Each problem of the files is answered as tsumego-ask does. Then each line of its solution is checked: lines called right keep the win, and
lines called wrong lose. A line is called so by TE and BM or by words as Correct, RIGHT, Wrong; without any the first line counts as right.
A problem without a solution is answered, and is no fault. One whose name or comment asks whether the group is alive needs none.

FOLDER gets report.html (faults first, with pictures), report.tsv, report.json (an object in a line for each problem) and marked.sgf, the
problems with marks and all that stood in them. A further run asks again only what is new, changed or wasn't settled, and says which
answers are other ones than before.

The status is 0 if no problem has a fault, 1 if one has, and 2 if nothing could be done.
"""
import argparse
import collections
import fcntl
import hashlib
import json
import os
import sys
import threading
from typing import Any, Dict, Iterator, List, Optional, Tuple

from . import __version__
from .answers import UNSETTLED, Answer, refused
from .asking import SECONDS, answer
from .checking import faults
from .command import Parser, seconds, status_of
from .inputs import Input, UsageError, read_file
from .problems import asked_at
from .programs import JOBS, in_parallel, use_machines
from .report import card, page, pictures
from .sgf import GameTree, Node, main_line, to_text, write_bytes
from .solving import certified
from .words import as_data, heading, said, shown

__all__ = ["main"]

KEPT = "answers.json"
KO = {True: "decides", False: "no", None: "unknown"}
COLUMNS = ("file", "problem", "name", "verdict", "winning", "failing", "if_other_begins", "closings", "ko", "certificate", "faults")


def parser() -> Parser:
    usage = "tsumego-book FOLDER FILE.. [--seconds N] [--jobs N] [--machines NAME,..] [--certificates]"
    made = Parser("tsumego-book", usage, __doc__)
    made.add_argument("folder", help=argparse.SUPPRESS)
    made.add_argument("files", nargs="+", help=argparse.SUPPRESS)
    made.add_argument("--seconds", type=seconds, default=SECONDS, metavar="N", help=f"how long a problem may take, and its solution ({SECONDS:.0f})")
    made.add_argument("--jobs", type=int, default=JOBS, metavar="N", help=f"how many problems are asked at a time, on each machine ({JOBS})")
    made.add_argument("--machines", type=lambda word: word.split(","), default=[], metavar="NAME,..", help="where to solve, by ssh; : is this machine. Each has tsumego on its PATH")
    made.add_argument("--certificates", action="store_true", help="find a certificate of each answer too, and check it here")
    return made


def asked(given: Input, limit: float, has_certificates: bool) -> Dict[str, Any]:
    """What the report has of a problem: data for machines, the card for people, the tree with marks."""
    found = answer(given.tree, None, limit, is_alone=False) if given.tree else refused(given.fault)
    wrong = faults(given.tree, found, limit) if given.tree else [f"refused: {given.fault}"]
    checked = certified(found.problem, found.verdict, limit) if has_certificates and found.problem and found.verdict.is_settled else "-"
    if checked not in ("valid", "too long", "-"):
        wrong.append(f"its certificate is {checked}")
    name = heading(given.file, given.number, found.name)
    lines = [f"Look: {each}{'' if each.endswith('?') else '.'}" for each in wrong] + said(found)
    tree = to_text(with_marks(given.tree, found)) if given.tree else ""
    return {**as_data(given.file, given.number, found), "certificate": checked, "faults": wrong, "card": card(name, lines, pictures(found), bool(wrong)), "tree": tree}


def with_marks(tree: GameTree, found: Answer) -> GameTree:
    """The tree with TR and SQ, and with the stones that close its wall."""
    problem = found.problem
    if problem is None:
        return tree
    at = asked_at(main_line(tree))
    copy = GameTree([Node(list(node.properties)) for node in tree.nodes], tree.variations)
    each, left = copy, at
    while left >= len(each.nodes):
        left -= len(each.nodes)
        first = each.variations[0]
        each.variations = [GameTree([Node(list(node.properties)) for node in first.nodes], first.variations)] + each.variations[1:]
        each = each.variations[0]
    node = each.nodes[left].without("TR", "SQ").add("TR", *problem.targets).add("SQ", *problem.region)
    each.nodes[left] = node if node.has("B", "W") else node.add("A" + problem.attacker, *found.closings[0].stones)
    return copy


def key_of(given: Input, args: argparse.Namespace) -> str:
    """What an answer is kept by: where it stands, what was read, and how it was asked."""
    text = to_text(given.tree) if given.tree else given.fault
    return hashlib.sha256(write_bytes(f"{__version__} {args.seconds} {args.certificates} {given.file} {given.number} {text}")).hexdigest()


class Book:
    """The answers to the problems, those of earlier runs with them, and the files that are made of them."""

    def __init__(self, given: List[Input], args: argparse.Namespace) -> None:
        self.folder, self.given, self.args = args.folder, given, args
        self.keys = [key_of(each, args) for each in given]
        self.lock = threading.Lock()
        self.kept = open(os.path.join(self.folder, KEPT), "a+", encoding="utf-8", errors="surrogateescape")
        try:
            fcntl.flock(self.kept, fcntl.LOCK_EX | fcntl.LOCK_NB)
        except BlockingIOError as fault:
            raise UsageError(f"another run works in {shown(self.folder)}") from fault
        self.kept.seek(0)
        self.known: Dict[str, Dict[str, Any]] = dict(json.loads(line) for line in self.kept)

    def ask(self) -> None:
        """Asks what isn't known; each answer is kept at once."""

        def ask(pair: Tuple[str, Input]) -> None:
            key, row = pair[0], asked(pair[1], self.args.seconds, self.args.certificates)
            with self.lock:
                self.known[key] = row
                self.kept.write(json.dumps([key, row]) + "\n")
                self.kept.flush()
                if sys.stderr.isatty():
                    print(f"\r{sum(key in self.known for key in self.keys)} of {len(self.keys)}", end="", file=sys.stderr)

        open_ones = [(key, each) for key, each in zip(self.keys, self.given) if key not in self.known or self.known[key]["verdict"] == UNSETTLED]
        in_parallel(ask, open_ones, self.args.jobs * max(1, len(self.args.machines)))

    def rows(self) -> Iterator[Dict[str, Any]]:
        """What is known of the problems, in their order."""
        return (self.known[key] for key in self.keys if key in self.known)

    def write(self, name: str, text: str) -> None:
        path = os.path.join(self.folder, name)
        with open(path + ".new", "w", encoding="utf-8", errors="surrogateescape") as out:
            out.write(text)
        os.replace(path + ".new", path)

    def before(self) -> Optional[Dict[str, str]]:
        """The outcomes in the last report, if there is one."""
        try:
            with open(os.path.join(self.folder, "report.json"), encoding="utf-8", errors="surrogateescape") as report:
                return outcomes([json.loads(line) for line in report])
        except FileNotFoundError:
            return None

    def report(self) -> List[Dict[str, Any]]:
        """Writes the files; returns the rows with faults."""
        rows = list(self.rows())
        wrong = [row for row in rows if row["faults"]]
        title = f"{len(rows)} problems, {len(wrong)} to look at"
        self.write("report.html", page(title, [row["card"] for row in wrong + [row for row in rows if not row["faults"]]]))
        self.write("report.tsv", "".join("\t".join(line) + "\n" for line in [list(COLUMNS), *map(cells, rows)]))
        self.write("report.json", "".join(json.dumps({name: row[name] for name in row if name not in ("card", "tree")}) + "\n" for row in rows))
        self.write("marked.sgf", "".join(row["tree"] + "\n" for row in rows if row["tree"]))
        return wrong


def cells(row: Dict[str, Any]) -> List[str]:
    """A row of the table, each cell without tabs and ends of lines."""
    texts = {
        **row,
        "file": shown(row["file"]),
        "winning": " ".join(row["winning"]),
        "failing": " ".join(f"{each['turn']}:{each['refutation'] or '-'}" for each in row["failing"]),
        "ko": KO[row["ko"]["decides"]] if row.get("ko") else "",
        "closings": "; ".join(f"{' '.join(each['stones'])}: {each['verdict']}" for each in row["closings"]),
        "faults": "; ".join(row["faults"]),
    }
    return [" ".join(str(texts.get(name) or "").split()) or "-" for name in COLUMNS]


def outcomes(rows: List[Dict[str, Any]]) -> Dict[str, str]:
    """The verdict and the first moves that win of each problem. A problem goes by its name, if no other of its file has it."""
    count = collections.Counter((row["file"], row["name"]) for row in rows)
    return {
        heading(row["file"], 0 if row["name"] and count[row["file"], row["name"]] == 1 else row["problem"], row["name"]): " by ".join(
            filter(None, [row["verdict"], ", ".join(row["winning"])])
        )
        for row in rows
    }


def changes(before: Dict[str, str], now: Dict[str, str]) -> Iterator[str]:
    """What is told otherwise than before."""
    for name, outcome in now.items():
        if name not in before:
            yield f"new: {name}: {outcome}"
        elif before[name] != outcome:
            yield f"changed: {name}: {before[name]} -> {outcome}"
    yield from (f"gone: {name}: {outcome}" for name, outcome in before.items() if name not in now)


def run(args: argparse.Namespace) -> int:
    if os.path.isfile(args.folder):
        raise UsageError(f"{shown(args.folder)} is a file: the first word names a folder for the report, and the files come behind it")
    given = [each for file in args.files for each in read_file(file)]
    if os.path.exists(args.folder) and not os.path.exists(os.path.join(args.folder, KEPT)) and (not os.path.isdir(args.folder) or os.listdir(args.folder)):
        raise UsageError(f"{shown(args.folder)} is neither empty nor of an earlier run: the first word names a new folder for the report")
    os.makedirs(args.folder, exist_ok=True)
    use_machines(args.machines, args.jobs)
    book = Book(given, args)
    before = book.before()
    try:
        book.ask()
    finally:
        wrong = book.report()
    for row in wrong:
        print(f"{heading(row['file'], row['problem'], row['name'])}: {'; '.join(row['faults'])}")
    for line in changes(before, outcomes(list(book.rows()))) if before is not None else ():
        print(line)
    print(f"{len(given)} problem{'s' if len(given) > 1 else ''}, {len(wrong)} to look at: {os.path.join(shown(args.folder), 'report.html')}")
    return 1 if wrong else 0


def main(words: Optional[List[str]] = None) -> int:
    """Runs the command; returns its status."""
    args = parser().parse_args(words)
    return status_of("tsumego-book", lambda: run(args), "the report has what was asked until now, and a further run goes on")


if __name__ == "__main__":
    sys.exit(main())
