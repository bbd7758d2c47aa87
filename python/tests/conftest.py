"""The tests ask the programs that the gate has built, or those that the environment names: never the wrapper, which may build."""
import os
import sys
from pathlib import Path

TOP = Path(__file__).resolve().parents[2]
sys.path.insert(0, str(TOP / "python"))
for variable, name in (("TSUMEGO", "tsumego"), ("TSUMEGO_SHOW", "tsumego_show")):
    os.environ.setdefault(variable, str(TOP / "crates" / name / "out" / name))
