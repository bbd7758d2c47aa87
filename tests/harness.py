"""What the scripts of tests/, bench/ and docs/check share: the built programs, how a command is run, and how checks are counted and told.

A script compares by `see`, or by `tell`, and ends by `end`. It needs nothing but Python.
"""
import argparse
import concurrent.futures
import glob
import importlib.machinery
import os
import subprocess
import sys
from types import ModuleType
from typing import Callable, Iterator, List, NamedTuple, Optional, TypeVar

TOP = os.path.dirname(os.path.dirname(os.path.realpath(__file__)))

# Of failures so many are shown.
MOST_SHOWN = 50

Told = TypeVar("Told")
passed = failed = 0


class Ran(NamedTuple):
    """What a command wrote on standard output and on standard error, and its status."""

    stdout: bytes
    stderr: bytes
    returncode: int


def run(words: List[str], given: bytes = b"", timeout: Optional[float] = 600, **more) -> Ran:
    done = subprocess.run(words, input=given, stdout=subprocess.PIPE, stderr=subprocess.PIPE, timeout=timeout, **more)
    return Ran(done.stdout, done.stderr, done.returncode)


def asked(doc: str, **options) -> argparse.Namespace:
    """The words of the command line: options with these defaults, where False is a flag's, and behind them PROGRAM and SHOW, a tsumego and
    a tsumego-show; without these those of this tree."""
    parser = argparse.ArgumentParser(description=doc, formatter_class=argparse.RawDescriptionHelpFormatter)
    for name, default in options.items():
        if default is False:
            parser.add_argument(f"--{name}", action="store_true")
        else:
            parser.add_argument(f"--{name}", type=type(default), default=default)
    for name, built in ("program", "tsumego"), ("show", "tsumego_show"):
        parser.add_argument(name, nargs="?", default=os.path.join(TOP, "crates", built, "out", built))
    return parser.parse_args()


def begin() -> None:
    """Goes to the top of the tree, where `./tsumego` is run. Its first use builds the program, and says so."""
    os.chdir(TOP)
    if subprocess.run(["./tsumego", "score"], input=bytes_of("examples/even_game.sgf"), stdout=subprocess.DEVNULL).returncode:
        sys.exit(1)


def loaded(path: str) -> ModuleType:
    """A Python file of this tree as a module."""
    name = os.path.basename(path).partition(".")[0]
    module, file = ModuleType(name), os.path.join(TOP, path)
    module.__file__ = file
    importlib.machinery.SourceFileLoader(name, file).exec_module(module)
    return module


def checker() -> ModuleType:
    """The checker that stands alone."""
    return loaded("tools/check_certificate.py")


def text_of(path: str) -> str:
    with open(os.path.join(TOP, path), encoding="utf-8") as text:
        return text.read()


def sources(pattern: str = "crates/*/src") -> List[str]:
    """The files of code in the folders that a pattern names, and below."""
    return sorted(path for folder in glob.glob(pattern) for path in glob.glob(f"{folder}/**/*.rt", recursive=True))


def rows_of(path: str) -> List[List[str]]:
    """The rows of a table, whose columns are apart by tabs."""
    return [line.split("\t") for line in text_of(path).splitlines() if not line.startswith("#")]


def bytes_of(path: str) -> bytes:
    with open(os.path.join(TOP, path), "rb") as file:
        return file.read()


def each(work: Callable[[int], Told], most: int) -> Iterator[Told]:
    """What `work` says of each number below `most`; several processes work."""
    with concurrent.futures.ProcessPoolExecutor(initializer=sys.setrecursionlimit, initargs=(20_000,)) as workers:
        yield from workers.map(work, range(most), chunksize=50)


def shown(value: object) -> str:
    """A text as it is, a list by lines, else as Python writes it; of what is long the two ends."""
    text = "\n".join(map(str, value)) if isinstance(value, list) else value if isinstance(value, str) else repr(value)
    return text if len(text) <= 4_000 else f"{text[:2_000]} .. {text[-2_000:]}, {len(text):,} characters"


def tell(wrong: Optional[str]) -> None:
    """Counts a check, and says what is wrong with it, if anything is."""
    global passed, failed
    if wrong is None:
        passed += 1
        return
    failed += 1
    if failed <= MOST_SHOWN:
        print(wrong, flush=True)


def see(what: str, wanted: object, found: object) -> None:
    """A comparison: what it is about, what was wanted and what was found."""
    tell(None if wanted == found else f"{what}\nexpected {shown(wanted)}\nanswered {shown(found)}")


def end(name: str) -> int:
    """Says how many checks passed and failed; the status, which is 1 where one failed or there was none."""
    print(f"{name}: {passed} passed, {failed} failed")
    return 1 if failed or not passed else 0
