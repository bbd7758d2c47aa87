"""The proved programs, `tsumego` and `tsumego-show`: where they are, and a process of each with a limit in seconds, here or on other
machines.

A program is looked for in this order: the environment's TSUMEGO or TSUMEGO_SHOW (a path), the repository or the archive that this
package lies in, the PATH. In a repository its first use may build the programs; the wrapper then says so on standard error.
"""
import functools
import os
import queue
import shlex
import shutil
import subprocess
import threading
from concurrent.futures import Future, ThreadPoolExecutor
from dataclasses import dataclass
from types import TracebackType
from typing import Any, Callable, Dict, Iterable, List, Optional, Sequence, Set, Type, TypeVar

__all__ = ["Ended", "HOME", "JOBS", "ProgramError", "Questions", "in_parallel", "program", "run", "stop", "use_machines"]

HOME = os.path.dirname(os.path.dirname(os.path.dirname(os.path.realpath(__file__))))
# The status of coreutils' timeout, which other machines run the program under.
TIMED_OUT = 124
# So many programs run at a time: the environment's TSUMEGO_JOBS, or one for each processor.
JOBS = int(os.environ.get("TSUMEGO_JOBS") or 0) or (len(os.sched_getaffinity(0)) if hasattr(os, "sched_getaffinity") else os.cpu_count() or 1)

Given = TypeVar("Given")
Found = TypeVar("Found")
_running: Set["subprocess.Popen[bytes]"] = set()
# One queue of free places where machines are named: the name of a machine for each program that it may begin.
_places: List["queue.Queue[str]"] = []
_stopping = threading.Event()
# The question that a thread is at, if it may be dropped.
_thread = threading.local()


class ProgramError(RuntimeError):
    """A program isn't there, or it failed. The text says which, and what it wrote."""


@dataclass(frozen=True)
class Ended:
    """What a run wrote. `status` is None where it ran out of time: then `text` has the whole lines until then."""

    text: str
    errors: str
    status: Optional[int]


@functools.lru_cache(None)
def program(name: str) -> str:
    """The path of `tsumego` or `tsumego-show`. Raises ProgramError where there is none."""
    variable = name.upper().replace("-", "_")
    named = os.environ.get(variable)
    if named:
        found = shutil.which(named)
        if not found:
            raise ProgramError(f"there is no program {named}, which the environment's {variable} names")
        return found
    crate = os.path.join(HOME, "crates", name.replace("-", "_"))
    if os.path.exists(crate):
        _see_to_it(os.path.join(HOME, name))
        return os.path.join(crate, "out", name.replace("-", "_"))
    found = shutil.which(os.path.join(HOME, "bin", name)) or shutil.which(name)
    if not found:
        raise ProgramError(f"there is no program {name} on the PATH; the environment's {variable} may name it")
    return found


def _see_to_it(wrapper: str) -> None:
    """The wrapper builds the program where it isn't as new as its sources, and says so."""
    words = ["score"] if os.path.basename(wrapper) == "tsumego" else []
    ended = subprocess.run([wrapper, *words], stdin=subprocess.DEVNULL, stdout=subprocess.DEVNULL, check=False)
    if ended.returncode == 2:
        raise ProgramError(f"{wrapper} can't be built or run, for the reason above")


def use_machines(machines: Sequence[str], jobs: int) -> None:
    """From now on `tsumego` runs on these machines, so many times at once on each. Another machine is named as ssh takes it, and has
    `tsumego` on its PATH; `:` is this one. Without machines it runs here, as often as it is asked for."""
    _places[:] = [queue.Queue()] if machines else []
    for machine in list(machines) * jobs:
        _places[0].put(machine)


def run(name: str, words: List[str], text: bytes, seconds: Optional[float] = None, is_here: bool = False) -> Ended:
    """Runs a program to its end, or ends it when the seconds are over. `is_here`: on this machine, whatever others are named.

    Raises ProgramError where the program isn't there, refuses its words, or is ended by a signal.
    """
    if is_here or not _places or name != "tsumego":
        return _run([program(name), *words], name, text, seconds)
    places = _places[0]
    machine = places.get()
    try:
        if machine == ":":
            return _run([program(name), *words], name, text, seconds)
        limited = ["timeout", f"{seconds:.2f}"] if seconds is not None else []
        return _run(["ssh", "-o", "BatchMode=yes", machine, shlex.join([*limited, name, *words])], f"{name} on {machine}", text, seconds)
    finally:
        places.put(machine)


def stop() -> None:
    """Ends the programs that run. None begins any more until the main thread asks anew."""
    _stopping.set()
    for process in list(_running):
        process.kill()


def _begin_again() -> None:
    """In the main thread: what was stopped has come to its end, and programs may begin again."""
    if threading.current_thread() is threading.main_thread():
        _stopping.clear()


def _run(command: List[str], name: str, text: bytes, seconds: Optional[float]) -> Ended:
    _begin_again()
    question: Optional[_Question] = getattr(_thread, "question", None)
    if _stopping.is_set() or (question and question.is_dropped):
        raise ProgramError("stopped")
    try:
        process = subprocess.Popen(command, stdin=subprocess.PIPE, stdout=subprocess.PIPE, stderr=subprocess.PIPE)
    except OSError as fault:
        raise ProgramError(f"{command[0]}: {fault.strerror}") from fault
    _running.add(process)
    if question:
        question.process = process
    if _stopping.is_set() or (question and question.is_dropped):
        process.kill()
    try:
        out, errors = process.communicate(text, timeout=seconds)
        status: Optional[int] = process.returncode
    except subprocess.TimeoutExpired:
        process.kill()
        out, errors = process.communicate()
        status = TIMED_OUT
    except BaseException:
        process.kill()
        process.wait()
        raise
    finally:
        _running.discard(process)
    if status == TIMED_OUT:
        status, out = None, out[: out.rfind(b"\n") + 1]
    if status not in (None, 0, 1):
        said = errors.decode("utf-8", "replace").strip().partition("\n")[0]
        raise ProgramError(f"{name}: {said or f'ended by signal {-status}' if status and status < 0 else said}")
    return Ended(out.decode("ascii", "surrogateescape"), errors.decode("utf-8", "replace"), status)


class _Question:
    """What a thread is asked: the program that runs for it, and whether its answer is wanted no more."""

    def __init__(self) -> None:
        self.process: Optional["subprocess.Popen[bytes]"] = None
        self.is_dropped = False

    def drop(self) -> None:
        self.is_dropped = True
        if self.process:
            self.process.kill()


class Questions:
    """Questions to the programs, in the order in which they are asked, so many at a time. Behind the `with` all are answered or dropped.
    Ctrl-C ends the programs that run, and begins no other."""

    def __init__(self, jobs: int = JOBS) -> None:
        _begin_again()
        self._pool = ThreadPoolExecutor(max(1, jobs))
        self._asked: Dict["Future[Any]", _Question] = {}

    def ask(self, ask: Callable[..., Found], *given: Any) -> "Future[Found]":
        question = _Question()

        def asked() -> Found:
            _thread.question = question
            try:
                return ask(*given)
            finally:
                _thread.question = None

        future = self._pool.submit(asked)
        self._asked[future] = question
        return future

    def drop(self, future: "Future[Any]") -> None:
        """The answer isn't wanted: the program doesn't begin, or is ended."""
        future.cancel()
        self._asked[future].drop()

    def __enter__(self) -> "Questions":
        return self

    def __exit__(self, kind: Optional[Type[BaseException]], fault: Optional[BaseException], trace: Optional[TracebackType]) -> None:
        if kind:
            for future in self._asked:
                future.cancel()
            if not issubclass(kind, Exception):
                # (a thread that the pool doesn't know yet may begin later: so what stops it stays till the next question)
                stop()
        self._pool.shutdown()


def in_parallel(ask: Callable[[Given], Found], given: Iterable[Given], jobs: int = JOBS) -> List[Found]:
    """What is asked of each, in their order; so many are asked at a time."""
    with Questions(jobs) as questions:
        return [future.result() for future in [questions.ask(ask, each) for each in given]]
