"""Programs as processes, here and on other machines: with stand-ins, so that nothing is solved."""
import os
import threading
import time
from pathlib import Path
from typing import Callable, Iterator, List

import pytest

from tsumego import programs


@pytest.fixture
def stand_in(tmp_path: Path, monkeypatch: pytest.MonkeyPatch) -> Callable[[str, str], Path]:
    """Makes a script that stands for a program, on a PATH of its own folder and the system's."""
    monkeypatch.setenv("PATH", f"{tmp_path}:{os.environ['PATH']}")
    monkeypatch.setenv("TSUMEGO", "tsumego")
    programs.program.cache_clear()

    def made(name: str, text: str) -> Path:
        path = tmp_path / name
        path.write_text(f"#!/bin/sh\n{text}\n")
        path.chmod(0o755)
        return path

    yield made
    programs.use_machines([], 1)
    programs.program.cache_clear()


def test_what_a_program_says(stand_in: Callable[[str, str], Path]) -> None:
    stand_in("tsumego", 'echo "1 $*"; echo 2; printf cut; [ "$1" != late ] || exec sleep 60')
    assert programs.run("tsumego", ["solve"], b"", 60).text == "1 solve\n2\ncut"
    late = programs.run("tsumego", ["late"], b"", 3)
    assert (late.text, late.status) == ("1 late\n2\n", None)
    stand_in("tsumego", "echo no such word >&2; exit 2")
    with pytest.raises(programs.ProgramError, match="^tsumego: no such word$"):
        programs.run("tsumego", ["solve"], b"")


def test_machines_share_the_work(stand_in: Callable[[str, str], Path], tmp_path: Path) -> None:
    # ssh OPTION OPTION MACHINE COMMAND
    stand_in("ssh", f'echo "$3 $4" >> {tmp_path}/log; machine=$3; export machine; eval "$4"')
    stand_in("tsumego", 'sleep 0.3; read -r line; echo "1 $line ${machine-here}"; [ "$line" != late ] || exec sleep 60')
    programs.use_machines(["one", "two", ":"], 2)
    begun = time.monotonic()
    found = programs.in_parallel(lambda line: programs.run("tsumego", ["solve"], line, 20).text, [b"a b\n"] * 12, 12)
    assert time.monotonic() - begun > 0.6 and {line.split()[3] for line in found} == {"one", "two", "here"}
    assert {line.partition(" ")[2] for line in (tmp_path / "log").read_text().splitlines()} == {"timeout 20.00 tsumego solve"}
    programs.use_machines(["one"], 1)
    assert programs.run("tsumego", ["solve"], b"late\n", 1).status is None
    stand_in("ssh", "echo no route to host >&2; exit 255")
    with pytest.raises(programs.ProgramError, match="^tsumego on one: no route to host$"):
        programs.run("tsumego", ["solve"], b"")


def _ask(faults: List[BaseException]) -> None:
    try:
        programs.run("tsumego", ["solve"], b"")
    except programs.ProgramError as fault:
        faults.append(fault)


def test_a_stop_ends_what_runs_and_begins_nothing(stand_in: Callable[[str, str], Path], tmp_path: Path) -> None:
    stand_in("tsumego", f"echo >> {tmp_path}/log; exec sleep 60")
    programs.use_machines([":"], 1)
    faults: List[BaseException] = []
    threads = [threading.Thread(target=_ask, args=[faults]) for _ in range(3)]
    for thread in threads:
        thread.start()
    while not (tmp_path / "log").exists():
        time.sleep(0.01)
    programs.stop()
    for thread in threads:
        thread.join(20)
    # What is asked after that begins again.
    stand_in("tsumego", "echo 1")
    assert programs.in_parallel(str, [1]) == ["1"] and programs.run("tsumego", ["solve"], b"").text == "1\n"
    assert sorted(map(str, faults)) == ["stopped", "stopped", "tsumego: ended by signal 9"] and (tmp_path / "log").read_text() == "\n"


def test_nothing_begins_behind_ctrl_c(stand_in: Callable[[str, str], Path]) -> None:
    stand_in("tsumego", "echo 1")

    def interrupted() -> Iterator[int]:
        yield 1
        raise KeyboardInterrupt

    with pytest.raises(KeyboardInterrupt):
        programs.in_parallel(str, interrupted())
    # A thread may have been begun that the pool didn't know yet.
    faults: List[BaseException] = []
    late = threading.Thread(target=_ask, args=[faults])
    late.start()
    late.join(20)
    assert list(map(str, faults)) == ["stopped"]
    assert programs.in_parallel(lambda text: programs.run("tsumego", ["solve"], text).text, [b""]) == ["1\n"]


def test_a_question_that_is_dropped(stand_in: Callable[[str, str], Path], tmp_path: Path) -> None:
    stand_in("tsumego", f'echo >> {tmp_path}/log; read -r line; [ "$line" = short ] || exec sleep 60; echo 1')
    begun = time.monotonic()
    with programs.Questions(2) as questions:
        asked = [questions.ask(programs.run, "tsumego", ["solve"], line) for line in (b"long\n", b"short\n", b"long\n", b"long\n", b"short\n")]
        assert asked[1].result().text == "1\n"
        while (tmp_path / "log").read_text() != "\n\n\n":
            time.sleep(0.01)
        # One runs since the beginning, one since the short one ended, and one hasn't begun.
        for each in (asked[0], asked[2], asked[3]):
            questions.drop(each)
        assert asked[4].result().text == "1\n"
    assert time.monotonic() - begun < 50 and (tmp_path / "log").read_text() == "\n" * 4
    assert isinstance(asked[0].exception(), programs.ProgramError) and asked[3].cancelled()
