"""One problem asked in full: who wins, which first turns win, why the others fail, and who wins if the other side begins."""
from concurrent.futures import Future, wait
from dataclasses import replace
from typing import Callable, Dict, List, Optional, Tuple, Union

from .answers import LIVES, REFUSED, REPEATS, Answer, Closing, Turn, Verdict, refused, winner_of
from .ko import KoTest, is_looked_through
from .marking import Marked, Refused, marked
from .points import PASS, place
from .problems import Problem, name_of
from .programs import JOBS, Questions, in_parallel
from .sgf import GameTree, SgfError, main_line, read_bytes, trees_of
from .solving import Clock, certificate, settled, strategy, verdict
from .strategy import Strategy, read_certificate

__all__ = ["SECONDS", "answer", "solve", "with_strategies"]

SECONDS = 10.0
# Within so many seconds most verdicts come: then nothing is asked ahead.
SOON = 0.1
# Takes parts of an answer as they are known: the problem in each way to mark it, the verdict, and first turns.
Tell = Callable[[Union[Marked, Verdict, Turn]], None]


def solve(sgf: Union[str, bytes, GameTree], stone: Optional[str] = None, seconds: float = SECONDS) -> Answer:
    """Answers the first problem of a text in SGF.

    `stone` names a stone of the group (`C18` or `cb`) where the problem has no marks, or others are wanted. The answer comes within
    some `seconds`. A text that is no problem gets an answer too: its verdict is `refused`, and `why` says why.

    Raises ProgramError where the programs aren't there or fail.
    """
    if isinstance(sgf, GameTree):
        return answer(sgf, stone, seconds)
    try:
        return answer(trees_of(read_bytes(sgf) if isinstance(sgf, bytes) else sgf)[0], stone, seconds)
    except SgfError as fault:
        return refused(str(fault))


def answer(tree: GameTree, stone: Optional[str] = None, seconds: float = SECONDS, tell: Tell = lambda part: None, is_alone: bool = True) -> Answer:
    """The answer to one tree; see `solve`. `tell` takes parts of it as they are known, of first turns only those that are asked about.
    Where the problem `is_alone`, free processors are put to questions whose answers may turn out to be of no use."""
    name, _ = name_of(main_line(tree))
    try:
        found = marked(tree, stone)
    except Refused as fault:
        return refused(str(fault), fault.number, name)
    tell(found)
    clock = Clock(seconds)
    with Questions() as questions:
        result = _Asked(found, clock, questions).answer(tell, is_alone and JOBS > 1)
    return replace(result, name=name, notes=found.hints, seconds=clock.spent())


class _Asked:
    """The questions about a problem: the verdicts of each closing with either side to begin, and the first turns of the first."""

    def __init__(self, found: Marked, clock: Clock, questions: Questions) -> None:
        self.found, self.clock, self.questions = found, clock, questions
        self.problems = [problem for _, problem in found.ways]
        self.problem = self.problems[0]
        self.first = questions.ask(settled, self.problem, clock)
        self.closings = [questions.ask(verdict, each, clock) for each in self.problems[1:]]
        # Of each closing the verdict where the other side begins, and of each first turn the one behind it.
        self.others: Dict[int, "Future[Verdict]"] = {}
        self.turns: Dict[str, "Future[Verdict]"] = {}

    def ask(self, closings: List[int], turns: List[str]) -> None:
        """Asks what wasn't asked yet, and drops what else was asked. Turns that wait take the order in which they are given."""
        dropped = [self.others.pop(at) for at in self.others.keys() - closings]
        for turn in [each for each, future in self.turns.items() if each not in turns or future.cancel()]:
            dropped.append(self.turns.pop(turn))
        for future in dropped:
            self.questions.drop(future)
        # (what takes longest begins first)
        for at in (each for each in closings if each not in self.others):
            self.others[at] = self.questions.ask(verdict, self.problems[at].with_other_side(), self.clock)
        for turn in (each for each in turns if each not in self.turns):
            self.turns[turn] = self.questions.ask(verdict, self.problem.after(turn), self.clock)

    def answer(self, tell: Tell, is_ahead: bool) -> Answer:
        """The whole answer. Where the verdict isn't there soon, all is asked ahead, and what then isn't wanted is dropped."""
        problem = self.problem
        if is_ahead and not wait([self.first], SOON).done:
            self.ask(list(range(len(self.problems))), problem.open_points())
        (word, line), verdicts = self.first.result(), [self.first.result()[0]] + [each.result() for each in self.closings]
        result = Answer("", word, problem)
        tell(word)
        is_lost = word.is_settled and not result.is_mover_winner
        closings = [at for at, each in enumerate(self.problems) if _is_other_open(each, verdicts[at])]
        if is_lost and not line:
            line = certificate(problem, self.clock.part(5))
        # (if the side to move loses, the winner's strategy has an answer to each turn)
        self.ask(closings, _turns_to_ask(result) if word.is_settled and not (is_lost and line) else [])
        for turn, future in self.turns.items():
            future.add_done_callback(lambda done, turn=turn: _tell_turn(tell, problem, turn, done))
        ours, ko = self._looked_through(result, line, is_lost)
        others = {at: future.result() for at, future in self.others.items()}
        each_other = [others.get(at, Verdict(each.word)) for at, each in enumerate(verdicts)]
        asked = zip(self.found.ways, self.problems, verdicts, each_other)
        result = replace(result, if_other_begins=each_other[0], closings=tuple(Closing(stones, *each) for (stones, _), *each in asked))
        if not word.is_settled:
            return result
        after = {turn: future.result() for turn, future in self.turns.items()}
        result = replace(result, turns=_answered(problem, ours) if is_lost and ours else _turns(result, after))
        return replace(result, ko=ko.end(result) if ko else None)

    def _looked_through(self, result: Answer, line: Optional[str], is_lost: bool) -> Tuple[Optional[Strategy], Optional[KoTest]]:
        """The winner's strategy, where something is made of it, and the ko test as far as it goes without the first turns. A long certificate
        takes a while to read: so that is done while the programs run."""
        if not result.verdict.is_settled:
            return None, None
        ko = KoTest(result, self.clock)
        if line and is_looked_through(line):
            ours = read_certificate(line)
            ko.begin(ours)
            return ours, ko
        asks: List[Callable[[], Optional[Strategy]]] = [lambda: ko.begin(None), lambda: read_certificate(line) if line and is_lost else None]
        return in_parallel(lambda ask: ask(), asks)[1], ko


def _tell_turn(tell: Tell, problem: Problem, turn: str, done: "Future[Verdict]") -> None:
    """Tells of a first turn when it is known. A play that repeats a position is none."""
    if not done.cancelled() and not done.exception() and not _is_repetition(done.result()):
        tell(_turn(problem, turn, done.result()))


def _is_repetition(after: Verdict) -> bool:
    return (after.word, after.detail) == (REFUSED, REPEATS)


def _is_other_open(problem: Problem, found: Verdict) -> bool:
    """Whether it isn't known who wins if the other side begins. If the side to move loses, it loses then too: so says its pass."""
    return winner_of(problem, found) in (None, problem.to_move)


def _turns_to_ask(result: Answer) -> List[str]:
    """The plays of the side to move of which the verdict doesn't say that they win. Those near the one that wins take longest, and come first:
    so no long one is left for the end."""
    assert result.problem
    first = result.verdict.turn
    turns = [turn for turn in result.problem.open_points() if turn != first]
    if not first or first == PASS:
        return turns
    column, row = place(first)
    return sorted(turns, key=lambda turn: abs(place(turn)[0] - column) + abs(place(turn)[1] - row))


def _turns(result: Answer, found: Dict[str, Verdict]) -> Tuple[Turn, ...]:
    """The first turns of the side to move, row by row, each with what is known of it. A pass counts where it wins for the defender."""
    problem, first = result.problem, result.verdict.turn
    assert problem
    turns = {turn: _turn(problem, turn, each) for turn, each in found.items() if not _is_repetition(each)}
    if first and first != PASS:
        turns[first] = Turn(first, True)
    if first == PASS or (problem.to_move == problem.defender and result.if_other_begins and result.if_other_begins.word == LIVES):
        turns[PASS] = Turn(PASS, True)
    return tuple(turns[turn] for turn in problem.open_points() + [PASS] if turn in turns)


def _answered(problem: Problem, ours: Strategy) -> Tuple[Turn, ...]:
    """The plays of a side that loses, with the answers of the other side's strategy. A group that is alive needs none."""
    turns = [turn for turn in problem.legal_turns() if turn != PASS]
    if not ours.replies:
        return tuple(Turn(turn, False, PASS) for turn in turns)
    return tuple(Turn(turn, False, ours.replies[turn].pick, ours.replies[turn]) for turn in turns)


def _turn(problem: Problem, turn: str, after: Verdict) -> Turn:
    """A turn, of the verdict after it."""
    winner = winner_of(problem, after)
    if winner is None:
        return Turn(turn, None)
    return Turn(turn, True) if winner == problem.to_move else Turn(turn, False, after.turn)


def with_strategies(result: Answer, seconds: float = SECONDS) -> Answer:
    """The answer with the winner's strategy after each first turn, as far as they are found within the seconds."""
    problem = result.problem
    if problem is None:
        return result
    asked, clock = [each for each in result.turns if each.wins is not None and not each.strategy], Clock(seconds)
    after = [problem.after(each.turn) for each in asked]
    found = in_parallel(lambda each: strategy(each, clock), after)
    strategies = {each.turn: then for each, then in zip(asked, found)}
    return replace(result, turns=tuple(replace(each, strategy=each.strategy or strategies.get(each.turn)) for each in result.turns))
