"""The manual pages and the completion name the options that the commands take."""
import re
import shutil
import subprocess
from pathlib import Path

import pytest

from tsumego import __version__, ask, book, gtp, serve

TOP = Path(__file__).resolve().parents[2]
COMMANDS = {"tsumego-ask": ask.parser, "tsumego-book": book.parser, "tsumego-gtp": gtp.parser, "tsumego-serve": serve.parser}


@pytest.mark.parametrize("name", COMMANDS)
def test_options(name: str) -> None:
    options = {word for action in COMMANDS[name]()._actions for word in action.option_strings}
    manual = (TOP / "man" / f"{name}.1").read_text()
    assert set(re.findall(r"(?<![a-z])\\-(?:\\-)?[a-z]+(?:\\-[a-z]+)*", manual.partition(".SH OPTIONS")[2].partition("\n.SH ")[0])) == {word.replace("-", "\\-") for word in options}
    assert f'"tsumego {__version__}"' in manual.splitlines()[0]
    completed = re.search(f"-W '([^']*)' {name}$", (TOP / "completions/tsumego.bash").read_text(), re.M)
    assert completed and set(completed[1].split()) == options - {"-h"}


@pytest.mark.skipif(not shutil.which("mandoc"), reason="mandoc isn't installed")
@pytest.mark.parametrize("name", COMMANDS)
def test_manual_pages_are_well_formed(name: str) -> None:
    ended = subprocess.run(["mandoc", "-T", "lint", "-W", "warning", str(TOP / "man" / f"{name}.1")], capture_output=True, text=True, check=False)
    assert [line for line in ended.stdout.splitlines() if "missing date" not in line] == []
