"""Does a ko decide? The programs know no ko threats outside the region.

Where the winner's strategy answers each play of the loser that the board allows, no ko decides, however many threats the loser has: the
winner answers each of them, and goes on. Where the strategy leans on it that a play would repeat a position, that position is set up anew,
as it is after a threat: if the winner wins there too, one threat is of no use. Otherwise problems are made in which the loser has threats.

A threat of the attacker: in an empty corner a stone of the defender that counts as a target, with its two liberties in the region. A
play on one of them threatens to take it.

A threat of the defender: a chain of the wall beside the targets gets just two liberties, both in the region. A play on one of them
threatens to take the chain, and then the targets can't be taken any more. A play of the attacker on the other one saves it.

If that changes nothing, since the attacker takes a target meanwhile, or if no such chain is there, the defender is asked as if it had a
threat that is answered at a ko that the attacker takes: the position is set up anew, so that it may take back at once. Each turn of the
attacker that kills has to be such a ko, or to let the defender reach one by a turn.

What this can't see: a ko that needs more threats; without room for a threat, a ko that comes later.
"""
import itertools
from dataclasses import replace
from typing import Dict, FrozenSet, Iterator, List, Optional, Set, Tuple

from .answers import KILLED, LIVES, Answer, Ko, Verdict
from .board import OTHER, Board
from .points import PASS, sgf_name
from .problems import Problem, set_up
from .solving import OUT_OF_TIME, Clock, first_turns, verdicts
from .strategy import Strategy, positions

__all__ = ["KoTest", "is_looked_through", "leaning_on_repetition", "with_attackers_threat", "with_defenders_threat"]

MOST_THREATS = 3
# For each second that an answer may take so many made problems are asked, and of each so many positions; and as many as for some seconds at
# least. Problems with threats are harder than others, and few.
ASKED, POSITIONS, HARDER, SECONDS = 12, 300, 40, 10
# A strategy of more positions isn't looked through: that takes too long. And so many of them are asked about.
LONGEST, MOST_LEANING = 5_000, 24
# So many turns of the defender lead to a ko at most, and so many turns of the attacker are followed at each.
DEEPEST, MOST_TURNS = 2, 3


class KoTest:
    """What made problems say of a settled answer: with how many threats of the loser it becomes another one, up to three. How much is asked
    goes by the clock's seconds, and not by how fast the machine is: so the answer is the same again, if the clock doesn't run out."""

    def __init__(self, answer: Answer, clock: Clock) -> None:
        assert answer.problem
        self.problem, self.verdict, self.asking = answer.problem, answer.verdict, _Asking(clock)
        self.ko, self.is_whole = Ko(None, 0, ()), False

    def begin(self, ours: Optional[Strategy]) -> None:
        """Asks what doesn't go by the other first turns. `ours` is the winner's strategy, if it can be looked through."""
        leaning = leaning_on_repetition(self.problem, ours) if ours else None
        if leaning is not None and all(each.word == self.verdict.word for each in self.asking.verdicts(leaning, HARDER)):
            self.ko, self.is_whole = Ko(False, 1 if leaning else 0, tuple(leaning)), True
            return
        self.ko = _with_threats(self.problem, self.verdict, self.asking)
        self.is_whole = bool(self.ko.decides) or self.verdict.word == LIVES

    def end(self, answer: Answer) -> Ko:
        """Asks the rest, with the first turns of the answer."""
        problem, asking = self.problem, self.asking
        if self.is_whole:
            return self.ko
        if problem.to_move == problem.attacker and not answer.unknown:
            asking.known[problem.text()], asking.kills[problem.text()] = answer.verdict, list(answer.winning)
        # (a defender that can do nothing passes, and the attacker begins)
        begins = [problem] if problem.to_move == problem.attacker else [problem, problem.after(PASS)]
        for depth in range(1, DEEPEST + 1):
            for each in begins:
                after = _living(each, depth, asking)
                if after:
                    return Ko(True, 1, tuple(after))
        return self.ko


class _Asking:
    """Asks about made problems, so many at most, of each so many positions."""

    def __init__(self, clock: Clock) -> None:
        seconds = max(SECONDS, clock.seconds)
        self.clock, self.left, self.positions = clock, round(ASKED * seconds), round(POSITIONS * seconds)
        self.known: Dict[str, Verdict] = {}
        self.kills: Dict[str, List[str]] = {}

    def verdicts(self, problems: List[Problem], times: int = 1) -> List[Verdict]:
        """Who wins each problem, in so many times the positions. Those past the bound aren't settled."""
        texts = [each.text() for each in problems]
        new = {text: each for text, each in zip(texts, problems) if text not in self.known}
        asked = dict(list(new.items())[: self.left])
        self.left -= len(asked)
        self.known.update(zip(asked, verdicts(list(asked.values()), self.clock, self.positions * times)))
        return [self.known.get(text, OUT_OF_TIME) for text in texts]

    def verdict(self, problem: Problem) -> Verdict:
        return self.verdicts([problem])[0]

    def killing(self, problem: Problem) -> List[str]:
        """The turns of the attacker that kill; none where that isn't known."""
        text = problem.text()
        if text not in self.kills:
            found = first_turns(problem, self.clock, self.positions) if self.left > 0 else {}
            self.left -= len(found)
            self.kills[text] = [turn for turn, word in found.items() if word == KILLED]
        return self.kills[text]


def _with_threats(problem: Problem, verdict_without: Verdict, asking: _Asking) -> Ko:
    """What the problems with one, two and three threats of the loser say."""
    add = with_attackers_threat if verdict_without.word == LIVES else with_defenders_threat
    tried: List[Problem] = []
    made = add(problem) if problem.region else None
    while made and len(tried) < MOST_THREATS:
        tried.append(made)
        made = add(made)
    for count, found in enumerate(asking.verdicts(tried, HARDER), 1):
        if found.word != verdict_without.word:
            return Ko(True if found.is_settled else None, count, tuple(tried[:count]))
    return Ko(False if tried else None, len(tried), tuple(tried))


def is_looked_through(line: str) -> bool:
    """Whether a certificate is short enough to be looked through."""
    return positions(line) <= LONGEST


def leaning_on_repetition(problem: Problem, ours: Strategy) -> Optional[List[Problem]]:
    """The positions of a strategy, set up anew, at which the other side may not play where the board allows it, since that repeats a position;
    None where there are many, or where the strategy is long. (A suicide of one stone changes no position.)"""
    found: Dict[FrozenSet[Tuple[str, str]], Problem] = {}
    region, seen = set(problem.region or problem.position()[0].points()), {id(ours)}
    waiting = [(*problem.position(), ours)]
    while waiting:
        board, colour, each = waiting.pop()
        if each.replies and any(board.copy().play(colour, point) != {point} for point in region - board.stones.keys() - each.replies.keys()):
            found[board.key()] = replace(problem, nodes=(set_up(board, colour),))
        if len(found) > MOST_LEANING or len(seen) > LONGEST:
            return None
        for turn, then in each.branches():
            if id(then) not in seen and then.branches():
                seen.add(id(then))
                after = board.copy()
                after.play(colour, turn)
                waiting.append((after, OTHER[colour], then))
    return list(found.values())


def with_attackers_threat(problem: Problem) -> Optional[Problem]:
    """The problem with one more ko threat of the attacker, in a corner; None where none is empty."""
    board, _ = problem.position()
    used = set(board.stones) | {near for point in problem.region for near in [point, *board.beside(point)]}
    for right, below in ((False, False), (True, False), (False, True), (True, True)):
        columns = [problem.columns - 1 - at if right else at for at in range(3)]
        rows = [problem.rows - 1 - at if below else at for at in range(3)]
        if min(problem.columns, problem.rows) > 6 and not used & {sgf_name(x, y) for x in columns for y in rows}:
            corner, near = sgf_name(columns[0], rows[0]), (sgf_name(columns[1], rows[0]), sgf_name(columns[0], rows[1]))
            made = problem.with_stones(problem.defender, [corner])
            return replace(made, targets=problem.targets + (corner,), region=problem.region + near)
    return None


def with_defenders_threat(problem: Problem) -> Optional[Problem]:
    """The problem with one more ko threat of the defender, against a chain of the wall; None where none can be made."""
    board, _ = problem.position()
    region = set(problem.region)
    targets = [board.chain(target) for target in problem.targets]
    for wall in board.chains():
        if board.stones[min(wall)] == problem.attacker and all(_touch(board, wall, chain) for chain in targets):
            found = _threat_against(board, wall, region, problem.defender)
            if found:
                stones, near = found
                return replace(problem.with_stones(problem.defender, sorted(stones)), region=problem.region + near)
    return None


def _touch(board: Board, one: Set[str], other: Set[str]) -> bool:
    return any(near in other for stone in one for near in board.beside(stone))


def _threat_against(board: Board, wall: Set[str], region: Set[str], defender: str) -> Optional[Tuple[Set[str], Tuple[str, str]]]:
    """Stones that leave a chain of the wall two liberties, and these. All else stays as safe as it was, also after a play on each."""
    free = board.liberties(min(wall))
    if any(near in region for stone in wall for near in board.beside(stone)) or any(board.stones.get(near) == defender for point in free for near in board.beside(point)):
        return None
    for pair in itertools.combinations(sorted(free), 2):
        outside = region.union(pair)
        if _are_safe(board, _with(board, free.difference(pair), defender), wall, outside):
            # Whichever of the two the defender plays, the attacker's play on the other one saves the chain.
            answered = [_with(_with(board, free - {saves}, defender), {saves}, OTHER[defender]) for saves in pair]
            if all(_are_safe(board, each, set(), outside) for each in answered):
                return free.difference(pair), pair
    return None


def _with(board: Board, points: Set[str], colour: str) -> Board:
    made = board.copy()
    made.stones.update((point, colour) for point in points)
    return made


def _are_safe(board: Board, made: Board, but: Set[str], region: Set[str]) -> bool:
    """Whether each chain of the board made has a liberty outside the region, which nobody can fill, but for one chain and those that
    had none before."""
    for chain in made.chains():
        had = not chain & board.stones.keys() or board.liberties(min(chain & board.stones.keys())) - region
        if had and not chain & but and not made.liberties(min(chain)) - region:
            return False
    return True


# ---- without room for a threat: the defender takes back


def _living(problem: Problem, depth: int, asking: _Asking) -> List[Problem]:
    """The problems after kos in which the defender lives, if there is one for each turn of the attacker that kills; else none. So many
    turns of the defender may lead to the ko."""
    board, to_move = problem.position()
    if not all(target in board.stones for target in problem.targets):
        return []
    if to_move == problem.defender:
        # (the attacker may have taken a ko: set up anew, the defender may take back)
        made = problem.anew()
        if problem.nodes[-1].has(problem.attacker) and asking.verdict(made).word == LIVES:
            return [made]
        return next(filter(None, _after_turns(problem, depth - 1, asking)), []) if depth else []
    first = asking.verdict(problem)
    if first.word != KILLED or not first.turn:
        return []
    found = [_living(problem.after(first.turn), depth, asking)]
    # (most positions need no other turn of the attacker)
    others = [turn for turn in asking.killing(problem) if turn != first.turn] if found[0] else []
    for turn in others if len(others) < MOST_TURNS else []:
        found += [_living(problem.after(turn), depth, asking)] if found[-1] else []
    return [made for each in found for made in each] if all(found) and len(others) < MOST_TURNS else []


def _after_turns(problem: Problem, depth: int, asking: _Asking) -> Iterator[List[Problem]]:
    """What follows each play of the defender."""
    turns = list(map(problem.after, problem.open_points()))
    kills = [(each, found.turn) for each, found in zip(turns, asking.verdicts(turns)) if found.word == KILLED and found.turn]
    # (asked side by side)
    asking.verdicts([each.after(turn).anew() for each, turn in kills])
    return (_living(each, depth, asking) for each, _ in kills)
