"""Solves one hard problem: each first turn is solved as a problem of its own, on this machine and on others, by ssh.

    tools/divide FOLDER PROBLEM.sgf [-- OPTION OF SOLVE ..]

The certificates of the turns are joined to one for the whole problem. FOLDER/certificate has it, and FOLDER/both has the problem and
the certificate, for `tsumego check --parts` and tools/check_certificate.py --parts. No machine is trusted: each certificate is checked
here before it counts, and so is the whole one. FOLDER keeps the answers. Run it again to go on where it was stopped, or a turn out of
time. The environment may set:

    JOBS      problems at a time, on each machine; by default one for each processor
    LIMIT     seconds that a problem may take; by default 600
    LEVELS    how many turns deep the problem may be divided; by default 1. With 2 an unsettled turn is divided by the answers to it
    MACHINES  where to solve, as `one,two,:`; `:` is this machine, and the default. Each other one has `tsumego` on its PATH
    TSUMEGO   the program here; by default that of this repository or archive

Standard output has the verdict, as `tsumego solve` writes it, or `1 unsettled`. Standard error has the result of each turn. The
status is 0 if the problem is settled, 1 if it isn't, and 2 if nothing could be done.
"""
import os
import re
import shutil
import sys
from typing import Dict, List, Optional, Tuple

from .answers import KILLED, LIVES
from .command import FAILED, status_of
from .inputs import UsageError, read_file
from .marking import refusal_of
from .points import PASS
from .problems import Problem, problem_of
from .programs import JOBS, ProgramError, in_parallel, program, run, stop, use_machines
from .sgf import write_bytes
from .solving import checked
from .strategy import cut_at_pass, word_of
from .words import shown

__all__ = ["main"]

# The turns behind the problem, and of a position who wins there and the tree of the strategy.
Path = Tuple[str, ...]
Found = Tuple[str, str]


def named(path: Path) -> str:
    return ".".join(map(word_of, path))


class Division:
    """What is known of the problem after each path."""

    def __init__(self, problem: Problem, folder: str, levels: int, options: List[str]) -> None:
        self.problem, self.folder, self.levels, self.options = problem, folder, levels, options
        self.known: Dict[Path, Optional[Found]] = {}
        self.lies: Dict[Path, str] = {}

    def at(self, path: Path) -> Problem:
        problem = self.problem
        for turn in path:
            problem = problem.after(turn)
        return problem

    def file(self, path: Path) -> str:
        return os.path.join(self.folder, "answers", named(path))

    def found(self, path: Path) -> Optional[Found]:
        """Who wins after the path, and by which tree; None where that isn't known."""
        if path not in self.known:
            self.known[path] = self._ended(path) or (self._answered(path) if path else None) or (self._composed(path) if len(path) < self.levels else None)
        return self.known[path]

    def _ended(self, path: Path) -> Optional[Found]:
        """A problem that is won, or where a pass wins at once: the attacker has passed, and the defender may."""
        problem = self.at(path)
        board, to_move = problem.position()
        if any(target not in board.stones for target in problem.targets):
            return KILLED, "."
        if path[-1:] == (PASS,):
            return (LIVES, ".") if path[-2:] == (PASS, PASS) else (LIVES, "!--.") if to_move == self.problem.defender else None
        return None

    def _answered(self, path: Path) -> Optional[Found]:
        """What the answer of a machine proves: nothing where there is none, or where its certificate isn't valid."""
        try:
            with open(self.file(path), encoding="ascii", errors="replace") as text:
                lines = text.read().splitlines()
        except FileNotFoundError:
            return None
        if not lines or not re.match("1 (killed|lives)", lines[0]):
            return None
        said = checked(self.at(path), lines[-1])
        if said != "valid" or len(lines) != 2:
            self.lies[path] = said
            return None
        word, _, tree = lines[1].partition(" ")
        # (where a pass stands in front, another one is the last turn, and ends the game)
        return word, cut_at_pass(tree) if path[-1:] == (PASS,) and tree.startswith("?") else tree

    def _composed(self, path: Path) -> Optional[Found]:
        """What follows from the positions after each turn."""
        problem = self.at(path)
        mover = LIVES if problem.to_move == self.problem.defender else KILLED
        after = [(turn, self.found(path + (turn,))) for turn in problem.legal_turns()]
        for turn, found in after:
            if found and found[0] == mover:
                return mover, f"!{word_of(turn)}{found[1]}"
        replies = [(word_of(turn), found[1]) for turn, found in after if found]
        return ({LIVES: KILLED, KILLED: LIVES}[mover], "?" + joined(replies) + ";") if len(replies) == len(after) else None

    def left(self, path: Path, length: int) -> List[Path]:
        """The paths of a length that have to be solved."""
        if self.found(path):
            return []
        if len(path) == length:
            return [path]
        return [each for turn in self.at(path).legal_turns() for each in self.left(path + (turn,), length)]

    def ask(self, length: int, limit: float, jobs: int) -> None:
        """Asks the machines for the paths of a length that have no answer yet. One first turn that wins is enough."""
        mover = LIVES if self.problem.to_move == self.problem.defender else KILLED
        is_won = False

        def ask(path: Path) -> None:
            nonlocal is_won
            try:
                lines = [] if is_won else run("tsumego", ["solve", "--cert", "--parts", *self.options], write_bytes(self.at(path).text()), limit).text.splitlines(True)
            except ProgramError as fault:
                if not is_won:
                    print(f"{named(path)}: {fault}", file=sys.stderr)
                return
            if lines and re.match("1 (killed|lives|unsettled)", lines[0]):
                with open(self.file(path) + ".new", "w", encoding="ascii") as out:
                    out.writelines(lines)
                os.replace(self.file(path) + ".new", self.file(path))
                if length == 1 and lines[0].startswith(f"1 {mover}"):
                    is_won = True
                    stop()

        os.makedirs(os.path.join(self.folder, "answers"), exist_ok=True)
        in_parallel(ask, [path for path in self.left((), length) if not os.path.exists(self.file(path))], jobs)
        self.known.clear()


def joined(replies: List[Tuple[str, str]]) -> str:
    """Turns and what follows each, one after the other. Shared parts are counted on."""
    text, parts = "", 0
    for turn, tree in replies:
        text += turn + re.sub(r"\*([0-9]+)", lambda found, parts=parts: f"*{int(found[1]) + parts}", tree)  # type: ignore[misc]
        parts += tree.count("=")
    return text


def read(file: str) -> Problem:
    """The problem of a file. Raises UsageError where it has none."""
    given = read_file(file)[0]
    fault = refusal_of(given.tree) if given.tree else given.fault
    if fault or given.tree is None:
        raise UsageError(f"{shown(file)} is no problem: {fault}")
    return problem_of(given.tree)


def keep_what_was_asked(folder: str, asked: str) -> None:
    """Makes the folder. Where it is of another question, that one's answers go."""
    os.makedirs(folder, exist_ok=True)
    kept = os.path.join(folder, "asked")
    if not os.path.exists(kept) or open(kept, encoding="utf-8", errors="surrogateescape").read() != asked:
        shutil.rmtree(os.path.join(folder, "answers"), ignore_errors=True)
        for name in ("certificate", "both"):
            if os.path.exists(os.path.join(folder, name)):
                os.remove(os.path.join(folder, name))
        with open(kept, "w", encoding="utf-8", errors="surrogateescape") as out:
            out.write(asked)


def tell(division: Division) -> int:
    """Writes what was found, and returns the status."""
    for turn in division.problem.legal_turns():
        known = division.found((turn,))
        print(f"{named((turn,))} {known[0] if known else 'unsettled'}", file=sys.stderr)
    found = division.found(())
    for path, said in sorted(division.lies.items()):
        os.remove(division.file(path))
        print(f"not believed: {named(path)}: its certificate is {said}; it is asked for again next time", file=sys.stderr)
    if not found:
        print(f"left: {' '.join(map(named, division.left((), division.levels)))}", file=sys.stderr)
        print("1 unsettled")
        return 1
    word, tree = found
    said = checked(division.problem, f"{word} {tree}")
    if said != "valid":
        raise ProgramError(f"the certificate of the whole problem is {said}")
    for name, text in (("certificate", ""), ("both", division.problem.text() + "\n")):
        with open(os.path.join(division.folder, name), "w", encoding="utf-8", errors="surrogateescape") as out:
            out.write(f"{text}{word} {tree}\n")
    print(f"1 {word} {tree.lstrip('=')[1:3].replace('--', PASS)}" if tree.lstrip("=").startswith("!") else f"1 {word}")
    return 0


def divide(folder: str, file: str, options: List[str]) -> int:
    problem = read(file)
    jobs, levels, limit = int(os.environ.get("JOBS", JOBS)), int(os.environ.get("LEVELS", 1)), float(os.environ.get("LIMIT", 600))
    machines = list(filter(None, os.environ.get("MACHINES", "").split(",")))
    keep_what_was_asked(folder, f"{program('tsumego')} {options}\n{problem.text()}")
    use_machines(machines or [":"], jobs)
    division = Division(problem, folder, levels, options)
    for length in range(1, levels + 1):
        division.ask(length, limit, jobs * max(1, len(machines)))
    return tell(division)


def main(words: List[str]) -> int:
    """Runs the command; returns its status."""
    if len(words) < 2 or (len(words) > 2 and words[2] != "--"):
        print(__doc__, file=sys.stderr)
        return FAILED
    return status_of("divide", lambda: divide(words[0], words[1], words[3:]), "what was found stays, and a further run goes on")
