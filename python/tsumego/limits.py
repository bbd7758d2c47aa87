"""What the programs take at most; what a request may take, and was asked to stay below."""
from dataclasses import dataclass, fields, replace
from typing import List, Mapping

__all__ = ["LIMITS", "Limits", "MOST_BYTES", "MOST_DEPTH", "MOST_DFPN"]

# Bytes of an input, turns that a strategy goes deep, positions that df-pn visits. docs/check compares them with the programs' own.
MOST_BYTES, MOST_DEPTH, MOST_DFPN = 1_048_576, 512, 100_000_000


@dataclass(frozen=True)
class Limits:
    """Seconds and bytes of memory for a program; nodes and df-pn's positions for a problem, as `solve` has them, 0 for no df-pn; bytes of an input."""

    seconds: float = 20.0
    memory: int = 300_000_000
    total: int = 100_000
    dfpn: int = 1_000_000
    bytes: int = MOST_BYTES

    def below(self, asked: Mapping[str, str]) -> "Limits":
        """These limits, or those that were asked for where they are lower. Raises ValueError where one is no number above 0."""
        lower = self
        for name in LIMITS:
            if name in asked:
                word = asked[name]
                if not word.isascii() or not word.replace(".", "", name == "seconds").isdigit() or float(word) <= 0:
                    raise ValueError(f"{name} is no number above 0")
                own = getattr(self, name)
                lower = replace(lower, **{name: min(own, type(own)(word))})
        return lower

    def solve(self) -> List[str]:
        """The words of `solve` with these limits."""
        return ["solve", "--total", str(self.total)] + (["--dfpn", str(self.dfpn)] if self.dfpn else [])


# The limits' names.
LIMITS = tuple(each.name for each in fields(Limits))
