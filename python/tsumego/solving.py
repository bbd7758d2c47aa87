"""Asks `tsumego solve` about a problem: who wins, after each first turn too, and by which strategy."""
import time
from typing import Dict, List, Optional, Tuple

from .answers import UNSETTLED, Verdict, verdict_of
from .limits import MOST_DFPN
from .problems import Problem
from .programs import JOBS, in_parallel, run
from .sgf import write_bytes
from .strategy import Strategy, read_certificate

__all__ = ["Clock", "OUT_OF_TIME", "POSITIONS", "certificate", "certified", "checked", "first_turns", "limit_positions", "settled", "solve_words", "strategy", "verdict", "verdicts"]

OUT_OF_TIME = Verdict(UNSETTLED, None, "time")

# How many positions df-pn may visit at first, and where time is left.
POSITIONS, MOST_POSITIONS = 2_000_000, MOST_DFPN


def limit_positions(most: int) -> None:
    """From now on df-pn visits at most so many positions, for a verdict as for a certificate."""
    global POSITIONS, MOST_POSITIONS
    POSITIONS, MOST_POSITIONS = min(POSITIONS, most), min(MOST_POSITIONS, most)


class Clock:
    """Seconds that run from now on."""

    def __init__(self, seconds: float) -> None:
        self.begun, self.seconds = time.monotonic(), seconds

    def spent(self) -> float:
        return time.monotonic() - self.begun

    def left(self) -> float:
        return max(0.0, self.seconds - self.spent())

    def part(self, share: int) -> "Clock":
        """A clock for a part of these seconds, or for what is left of them."""
        return Clock(min(self.left(), self.seconds / share))


def verdict(problem: Problem, clock: Clock) -> Verdict:
    """Who wins a problem. df-pn may visit some positions, and then as many as the clock allows."""
    found = OUT_OF_TIME
    for limit in sorted({POSITIONS, MOST_POSITIONS}):
        if clock.left() > 0:
            found = _verdict(_solve(problem.text(), clock, limit)) or found
        if found.word != UNSETTLED or found.detail == "memory":
            break
    return found


def settled(problem: Problem, clock: Clock) -> Tuple[Verdict, Optional[str]]:
    """Who wins a problem, and the certificate of that where one run finds both in a third of the seconds."""
    lines = _solve(problem.text(), clock.part(3), POSITIONS, "--cert", "--parts")
    found = _verdict(lines)
    if found and len(lines) > 1:
        return found, lines[1]
    return verdict(problem, clock), None


def verdicts(problems: List[Problem], clock: Clock, positions: int) -> List[Verdict]:
    """Who wins each of some easy problems, of which df-pn may visit so many positions. They share a process for each processor."""

    def ask(share: List[Problem]) -> List[Verdict]:
        found = list(map(verdict_of, _solve("\n".join(each.text() for each in share), clock, positions)))
        return found + [OUT_OF_TIME] * (len(share) - len(found))

    found = in_parallel(ask, [problems[at::JOBS] for at in range(min(JOBS, len(problems)))])
    return [found[at % JOBS][at // JOBS] for at in range(len(problems))]


def first_turns(problem: Problem, clock: Clock, positions: int) -> Dict[str, str]:
    """Of each legal first turn who wins after it: killed, lives or unsettled, where df-pn may visit so many positions. Empty where time runs out."""
    lines = _solve(problem.text(), clock, positions, "--turns")
    return {turn: word for turn, word in (line.split()[:2] for line in lines[1:])}


def certificate(problem: Problem, clock: Clock) -> Optional[str]:
    """The certificate of the answer, with shared parts; None where it isn't found in time or is too long to be checked."""
    lines = _solve(problem.text(), clock, MOST_POSITIONS, "--cert", "--parts")
    return lines[1] if len(lines) > 1 else None


def strategy(problem: Problem, clock: Clock) -> Optional[Strategy]:
    """The winner's strategy, if its certificate is found."""
    line = certificate(problem, clock)
    return read_certificate(line) if line else None


def certified(problem: Problem, found: Verdict, seconds: float) -> str:
    """What `check` says of a certificate for a verdict. `too long` is one that is too long for it, or for the seconds."""
    line = certificate(problem, Clock(seconds))
    if line is None:
        return "too long"
    if line.partition(" ")[0] != found.word:
        return "one for the other side"
    said = checked(problem, line)
    return "too long" if said == "refused 2" else said


def checked(problem: Problem, line: str) -> str:
    """What `check` says of a certificate on this machine: `valid`, `invalid`, `refused 31` and the like."""
    return run("tsumego", ["check", "--parts"], write_bytes(f"{problem.text()}\n{line}\n"), is_here=True).text.strip()


def _verdict(lines: List[str]) -> Optional[Verdict]:
    """What `solve` says of one problem, where it says it in time."""
    return verdict_of(lines[0]) if lines else None


def _solve(text: str, clock: Clock, positions: int, *options: str) -> List[str]:
    """The lines that `solve` writes for problems while the clock runs."""
    return run("tsumego", solve_words(positions, *options), write_bytes(text), clock.left()).text.splitlines() if clock.left() > 0 else []


def solve_words(positions: int, *options: str) -> List[str]:
    """The words of `solve` where df-pn alone is asked, and may visit so many positions."""
    return ["solve", "--budget", "1", "--dfpn", str(min(positions, MOST_POSITIONS)), *options]
