"""An answer in words, with points as editors name them."""
import json
from typing import Any, Dict, Iterable, List

from .answers import LIVES, UNSETTLED, Answer, Turn
from .board import NAMES, OTHER
from .points import PASS
from .problems import Problem

__all__ = ["as_data", "heading", "ko_said", "listed", "outcome", "refutation", "said", "shown"]


def listed(words: Iterable[str], last: str = "and") -> str:
    """`A, B and C`."""
    found = list(words)
    return f" {last} ".join([", ".join(found[:-1]), found[-1]]) if len(found) > 1 else "".join(found)


def shown(file: str) -> str:
    """A file's name in a line: quoted as JSON does where it has a newline, a tab or bytes that are no text."""
    return file if file.isprintable() else json.dumps(file)


def heading(file: str, number: int, name: str) -> str:
    """Which problem it is: its number is 0 where the file has no other."""
    return ("standard input" if file == "-" else shown(file)) + (f", problem {number}" if number else "") + (f": {name}" if name else "")


def said(answer: Answer) -> List[str]:
    """The answer, a sentence or two a line."""
    if answer.problem is None:
        return [f"Refused: {answer.why}."]
    lines = _wall(answer) + ([_unsettled(answer)] if not answer.verdict.is_settled else _settled(answer))
    return lines + [f"Look at the marks: {note}." for note in answer.notes]


def group(problem: Problem) -> str:
    return f"{NAMES[problem.defender]}'s group at {problem.point(problem.targets[0])}"


def _wall(answer: Answer) -> List[str]:
    """How an open wall was closed, and whether that matters."""
    problem = answer.problem
    assert problem
    if not answer.closings or not answer.closings[0].stones:
        return []
    first = answer.closings[0]
    lines = [f"The wall around {group(problem)} is open. Here it is closed at {listed(map(problem.point, first.stones))}."]
    if len(answer.closings) == 1:
        return lines
    if answer.closings_agree:
        return lines + [f"All {len(answer.closings)} closings agree."]
    for colour, word in ((problem.to_move, "verdict"), (OTHER[problem.to_move], "if_other_begins")):
        lines.append(_agreement(answer, colour, word))
    return lines


def _agreement(answer: Answer, colour: str, word: str) -> str:
    """Whether all closings give one verdict where this colour begins."""
    problem = answer.problem
    assert problem
    ways: Dict[str, List[str]] = {}
    for each in answer.closings:
        ways.setdefault(getattr(each, word).word, []).append(" ".join(map(problem.point, each.stones)))
    if len(ways) == 1:
        return f"If {NAMES[colour]} begins, all {len(answer.closings)} closings agree."
    parts = [f"{verdict} with {listed(stones, 'or')}" for verdict, stones in ways.items()]
    return f"If {NAMES[colour]} begins, the closings do not agree: {'; '.join(parts)}."


def _unsettled(answer: Answer) -> str:
    problem = answer.problem
    assert problem
    side = NAMES[problem.to_move]
    if answer.verdict.detail == "memory":
        return (
            f"Open: who wins if {side} begins wasn't found in the memory that the program may take. Give it more, "
            f"or try fewer squares: the region has {len(problem.region) or problem.columns * problem.rows} points."
        )
    return (
        f"Open: who wins if {side} begins wasn't found in {answer.seconds:.0f} seconds. Try --seconds {max(60, round(answer.seconds * 10))}, "
        f"or fewer squares: the region has {len(problem.region) or problem.columns * problem.rows} points."
    )


def outcome(answer: Answer) -> str:
    """Who wins if the side to move begins, and by which of the first turns that are known to win."""
    problem = answer.problem
    assert problem
    mover = NAMES[problem.to_move]
    does = f"save the group at {problem.point(problem.targets[0])}" if problem.to_move == problem.defender else f"kill {group(problem)}"
    if not answer.is_mover_winner:
        return f"{mover} begins and can't {does}."
    plays = [problem.point(turn) for turn in answer.winning if turn != PASS]
    return f"{mover} begins and can {does}{', by ' + listed(plays, 'or') if plays else ''}."


def _settled(answer: Answer) -> List[str]:
    problem = answer.problem
    assert problem and answer.if_other_begins
    other = NAMES[OTHER[problem.to_move]]
    is_defender = problem.to_move == problem.defender
    if not answer.is_mover_winner:
        stands = "It is dead as it stands." if is_defender else "It lives as it stands: it needs no move."
        return [f"{outcome(answer)} {stands}"] + _ko(answer) + _failing(answer, other)
    lines = [outcome(answer)]
    if PASS in answer.winning or answer.if_other_begins.word == answer.verdict.word:
        lines.append("It lives as it stands: it needs no move." if is_defender else "It is dead as it stands.")
    lines += _ko(answer) + _failing(answer, other)
    if answer.unknown:
        lines.append(f"Open, for want of seconds: {listed(map(problem.point, answer.unknown))}.")
    return lines + _other_side(answer)


def _ko(answer: Answer) -> List[str]:
    """That a ko decides, where it does."""
    found = ko_said(answer)
    return [f"But {found}."] if found else []


def ko_said(answer: Answer) -> str:
    """With how many threats a ko decides; nothing where none does, or that isn't known."""
    problem, ko = answer.problem, answer.ko
    assert problem
    if ko is None or not ko.decides:
        return ""
    loser, does = (problem.attacker, "kills") if answer.verdict.word == LIVES else (problem.defender, "lives")
    return f"a ko decides: with {('one', 'two', 'three')[ko.threats - 1]} ko threat{'s' if ko.threats > 1 else ''} {NAMES[loser]} {does}"


def _failing(answer: Answer, other: str) -> List[str]:
    """Each first turn that fails, with its refutation."""
    problem = answer.problem
    assert problem
    if not answer.failing:
        return []
    groups: Dict[str, List[str]] = {}
    for each in answer.failing:
        groups.setdefault(refutation(problem, each, other), []).append(problem.point(each.turn))
    return [f"These fail: {'; '.join(f'{listed(points)} ({answered})' for answered, points in groups.items())}."]


def refutation(problem: Problem, turn: Turn, other: str) -> str:
    """What the other side does after a turn that fails."""
    if turn.refutation is None:
        return "at once"
    return f"{other} needs no answer" if turn.refutation == PASS else f"{other} {problem.point(turn.refutation)}"


def _other_side(answer: Answer) -> List[str]:
    problem, other = answer.problem, answer.if_other_begins
    assert problem and other
    colour = OTHER[problem.to_move]
    if other.word == answer.verdict.word:
        return []
    if not other.is_settled:
        return [f"Open: who wins if {NAMES[colour]} begins."]
    does = "lives" if colour == problem.defender else "kills"
    begins = "If" if len({each.if_other_begins.word for each in answer.closings}) < 2 else "As it is closed here, if"
    return [f"{begins} {NAMES[colour]} begins, {NAMES[colour]} {does}{', by ' + problem.point(other.turn) if other.turn else ''}."]


def as_data(file: str, number: int, answer: Answer) -> Dict[str, Any]:
    """The answer as JSON has it. Points are named as editors do."""
    data: Dict[str, Any] = {"file": file, "problem": number, "name": answer.name, "verdict": answer.verdict.word, "winning": [], "failing": [], "closings": []}
    problem = answer.problem
    if problem is None:
        return {**data, "number": int(answer.verdict.detail), "why": answer.why}
    data.update(
        to_move=NAMES[problem.to_move],
        winner=NAMES[answer.winner] if answer.winner else None,
        group=list(map(problem.point, problem.targets)),
        winning=list(map(problem.point, answer.winning)),
        failing=[{"turn": problem.point(each.turn), "refutation": problem.point(each.refutation) if each.refutation else None} for each in answer.failing],
        open=list(map(problem.point, answer.unknown)),
        if_other_begins=answer.if_other_begins.word if answer.if_other_begins else None,
        closings=[
            {"stones": list(map(problem.point, each.stones)), "verdict": each.verdict.word, "if_other_begins": each.if_other_begins.word} for each in answer.closings if each.stones
        ],
        ko=answer.ko and {"decides": answer.ko.decides, "threats": answer.ko.threats, "problems": [each.text() for each in answer.ko.tried]},
        hints=list(answer.notes),
        seconds=round(answer.seconds, 3),
    )
    if answer.verdict.word == UNSETTLED:
        data["why"] = _unsettled(answer)
    return data
