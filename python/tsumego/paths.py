"""What a service answers to each path: by which program, and how as JSON."""
import json
import os
import sys
from dataclasses import dataclass
from typing import Any, Callable, Dict, List, Mapping, Tuple

from .answers import REFUSED, verdict_of
from .limits import LIMITS, MOST_DEPTH, Limits
from .points import is_point

__all__ = ["PATHS", "Path", "Programs", "worker_environment"]

PACKAGE = os.path.dirname(os.path.abspath(__file__))
Query = Mapping[str, str]


@dataclass(frozen=True)
class Programs:
    """Where `tsumego` and `tsumego-show` are."""

    tsumego: str
    show: str


@dataclass(frozen=True)
class Path:
    """`words` are those of the command. Where `is_worker`, it is this package in a process of its own, which asks the programs and writes JSON
    lines: `text` makes the answer for people of them. Otherwise it is a program, and `data` makes JSON of its text."""

    words: Callable[[Programs, Limits, Query], List[str]]
    data: Callable[[str], Any] = lambda text: {"text": text}
    is_worker: bool = False
    text: Callable[[List[Dict[str, Any]]], str] = lambda events: ""
    type: str = "text/plain; charset=us-ascii"


def worker_environment(programs: Programs) -> Dict[str, str]:
    """A worker finds the package and the programs, and asks one at a time: it has one place."""
    return {"PYTHONPATH": os.path.dirname(PACKAGE), "TSUMEGO": programs.tsumego, "TSUMEGO_SHOW": programs.show, "TSUMEGO_JOBS": "1", "MALLOC_ARENA_MAX": "1"}


def _solve(*more: str) -> Callable[[Programs, Limits, Query], List[str]]:
    return lambda programs, limits, query: [programs.tsumego, *limits.solve(), *more]


def _show(*words: str) -> Callable[[Programs, Limits, Query], List[str]]:
    return lambda programs, limits, query: [programs.show, *words]


def _sgf(programs: Programs, limits: Limits, query: Query) -> List[str]:
    depth = query.get("depth", "20")
    if not depth.isascii() or not depth.isdigit() or not 1 <= int(depth) <= MOST_DEPTH:
        raise ValueError(f"depth is no number from 1 to {MOST_DEPTH}")
    return [programs.show, "--sgf", "--depth", depth]


def _mark(programs: Programs, limits: Limits, query: Query) -> List[str]:
    if query.get("close"):
        return _worker("mark")(programs, limits, query)
    point = query.get("point")
    if point and not is_point(point):
        raise ValueError("point is no point: write it as C18 (there is no column I) or as cb")
    return [programs.show, "--mark"] + ([point] if point else [])


def _point(query: Query) -> str:
    word = query["point"]
    if not word.isascii() or not word.isalnum() or len(word) > 3:
        raise ValueError("point is no point: write it as C18 or as cb")
    return word


def _worker(kind: str) -> Callable[[Programs, Limits, Query], List[str]]:
    def words(programs: Programs, limits: Limits, query: Query) -> List[str]:
        stone = ["--stone", _point(query)] if query.get("point") else []
        return [sys.executable, "-B", "-m", "tsumego.telling", kind, "--seconds", f"{limits.seconds:g}", "--positions", str(limits.dfpn or 1), *stone]

    return words


def _problems(text: str) -> Dict[str, Any]:
    """The lines of `solve`: a problem each, with its turns or its certificate."""
    found: List[Dict[str, Any]] = []
    for line in text.splitlines():
        first = line.split()[0]
        if line.startswith("  "):
            found[-1].setdefault("turns", []).append({"turn": first, **_verdict(line.strip())})
        elif first.isdigit():
            found.append({"problem": int(first), **_verdict(line)})
        else:
            found[-1]["certificate"] = line
    return {"problems": found}


def _verdict(line: str) -> Dict[str, Any]:
    """What a line says behind its number or its turn."""
    found = verdict_of(line)
    detail: Dict[str, Any] = {"number": int(found.detail)} if found.word == REFUSED else {"turn": found.turn, "cause": found.detail}
    return {"verdict": found.word, **{name: each for name, each in detail.items() if each}}


def _scores(text: str) -> Dict[str, Any]:
    return {"records": list(map(_score, text.splitlines()))}


def _score(line: str) -> Dict[str, Any]:
    row = line.split()
    if row[1] == REFUSED:
        return {"record": int(row[0]), **_verdict(line)}
    return {"record": int(row[0]), "black": int(row[2]), "white": int(row[4]), "finished": row[5] == "finished"}


def _checked(text: str) -> Dict[str, Any]:
    word, _, number = text.strip().partition(" ")
    return {"verdict": word, **({"number": int(number)} if number else {})}


def _answer_text(events: List[Dict[str, Any]]) -> str:
    return "\n".join(events[-1].get("lines", [])) + "\n"


def _tree_text(events: List[Dict[str, Any]]) -> str:
    """The tree of the answer; where it was refused, why."""
    last = events[-1]
    tree = last["ways"][0]["sgf"] if last.get("ways") else last.get("sgf")
    return f"{tree}\n" if tree else f"why: {last.get('why')}\n"


UTF_8 = "text/plain; charset=utf-8"
PATHS: Dict[str, Path] = {
    "/solve": Path(_solve(), _problems),
    "/turns": Path(_solve("--turns"), _problems),
    "/cert": Path(_solve("--cert", "--parts"), _problems),
    "/score": Path(lambda programs, limits, query: [programs.tsumego, "score"], _scores),
    "/check": Path(lambda programs, limits, query: [programs.tsumego, "check", "--parts"], _checked),
    "/show": Path(_show()),
    "/svg": Path(_show("--svg"), type="image/svg+xml"),
    "/sgf": Path(_sgf),
    "/mark": Path(_mark, type=UTF_8, text=_tree_text),
    "/ask": Path(_worker("ask"), is_worker=True, text=_answer_text, type=UTF_8),
    "/solution": Path(_worker("solution"), is_worker=True, text=_tree_text, type=UTF_8),
}


# The words that may stand behind ?: limits, and what single paths take.
WORDS = {"/mark": ("point", "close"), "/ask": ("point",), "/solution": ("point",), "/sgf": ("depth",)}


def path_of(name: str, query: Query) -> Tuple[Path, bool]:
    """The path of a name, and whether a worker answers. Raises ValueError where the path takes no such word."""
    path = PATHS[name]
    for word in query:
        if word not in LIMITS + WORDS.get(name, ()):
            raise ValueError(f"{name} takes no {word}")
    if query.get("close", "1") != "1":
        raise ValueError("close is 1, or isn't there")
    return path, path.is_worker or (name == "/mark" and bool(query.get("close")))


def as_json(path: Path, text: str, said: str = "") -> str:
    """A program's text as JSON, with the lines that it said besides, if there are any."""
    return json.dumps({**path.data(text), **({"said": said.splitlines()} if said else {})}) + "\n"


def events_of(lines: bytes) -> List[Dict[str, Any]]:
    return [json.loads(line) for line in lines.splitlines()]
