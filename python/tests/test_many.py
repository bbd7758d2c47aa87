"""Many problems at a time."""
from pathlib import Path

import data
import pytest

import tsumego
from tsumego import many, programs

MARKED = [(row[1], row[3].replace("PL[", f"{row[2]}PL[", 1)) for row in data.SHAPES]


@pytest.mark.parametrize("jobs", [1, 3])
def test_a_broken_problem_hurts_no_neighbour(jobs: int) -> None:
    broken = ["(;SZ[9]AB[aa", "", "(;SZ[9]C[open)", b"\xff\xfe", "(;SZ[9]AB[aa])", "(;SZ[70]TR[aa])"]
    texts, expected = [], []
    for number, (verdict, text) in enumerate(MARKED):
        texts += [text, broken[number % len(broken)]]
        expected += [verdict, "refused"]
    assert [each.word for each in tsumego.verdicts(texts, 100, jobs=jobs)] == expected


def test_a_second_tree_is_not_read() -> None:
    verdict, text = MARKED[0]
    found = tsumego.verdicts([text + text, text + "(;broken", text], 100)
    assert [each.word for each in found] == [verdict] * 3


def test_what_ends_early_is_asked_anew(monkeypatch: pytest.MonkeyPatch) -> None:
    run, calls = many.run, []

    def late(name: str, words: list, text: bytes, seconds: float) -> many.run:
        ended = run(name, words, text, seconds)
        calls.append(text.count(b"(;"))
        return type(ended)("".join(ended.text.splitlines(True)[:2]) if len(calls) == 1 else ended.text, "", None)

    monkeypatch.setattr(many, "run", late)
    found = tsumego.verdicts([text for _, text in MARKED[:6]], 100, jobs=1)
    assert [each.word for each in found] == [verdict for verdict, _ in MARKED[:6]] and calls == [6, 1, 3]


def test_time_runs_out() -> None:
    assert [each.word for each in tsumego.verdicts([data.OPEN], 0.5)] == ["unsettled"]


def test_want_of_memory_is_told(tmp_path: Path, monkeypatch: pytest.MonkeyPatch) -> None:
    # df-pn takes more than 30 MB here.
    dense = "(;SZ[7]AB[ba][ca][cb][cd][df][eb][gd]AW[bf][ce][cf][db][ee][ef][ge][gg]PL[B]TR[ef])"
    starved = tmp_path / "starved"
    starved.write_text(f'#!/bin/sh\nexec prlimit --as=30000000 "{programs.program("tsumego")}" "$@"\n')
    starved.chmod(0o755)
    monkeypatch.setattr(programs, "program", lambda name: str(starved))
    verdict, text = MARKED[0]
    found = tsumego.verdicts([text, dense, text], 100, jobs=1)
    assert [(each.word, each.detail) for each in found] == [(verdict, ""), ("unsettled", "memory"), (verdict, "")]
