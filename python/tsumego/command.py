"""What the commands have in common: how they take their words, and how they end."""
import argparse
import difflib
import os
import re
import signal
import sys
from typing import Callable, NoReturn

from . import __version__
from .inputs import UsageError
from .programs import ProgramError

__all__ = ["Parser", "seconds", "status_of"]

FAILED, STOPPED = 2, 130


class Parser(argparse.ArgumentParser):
    """Says which option a typo stands for. The text above the options is the command's own."""

    def __init__(self, name: str, usage: str, text: str) -> None:
        super().__init__(prog=name, usage=usage, description=text, formatter_class=argparse.RawDescriptionHelpFormatter, allow_abbrev=False)
        self.add_argument("--version", action="version", version=f"{name} {__version__}")

    def error(self, message: str) -> NoReturn:
        wrong = re.search(r"unrecognized arguments: (-[^\s=]*)", message)
        options = [word for action in self._actions for word in action.option_strings]
        near = difflib.get_close_matches(wrong[1], options, 1) if wrong else []
        self.exit(FAILED, f"{self.prog}: {message}{f'; is {near[0]} meant?' if near else ''} ({self.prog} --help explains the words)\n")


def seconds(word: str) -> float:
    """The value of --seconds."""
    number = float(word)
    if not 0 < number < 1e9:
        raise argparse.ArgumentTypeError(f"{word} is no number of seconds")
    return number


def status_of(name: str, run: Callable[[], int], stopped: str) -> int:
    """Runs a command and returns its status. A fault gets a line on standard error, and so does Ctrl-C, with what stays then. At SIGTERM
    and SIGHUP the programs that run are ended too."""
    for number in (signal.SIGTERM, signal.SIGHUP):
        signal.signal(number, lambda given, _: sys.exit(128 + given))
    try:
        return run()
    except KeyboardInterrupt:
        print(f"{name}: stopped; {stopped}", file=sys.stderr)
        return STOPPED
    except BrokenPipeError:
        os.dup2(os.open(os.devnull, os.O_WRONLY), sys.stdout.fileno())
    except (UsageError, ProgramError, OSError) as fault:
        print(f"{name}: {fault}", file=sys.stderr)
    return FAILED
