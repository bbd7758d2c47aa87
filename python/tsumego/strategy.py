"""Certificates as strategies: a strategy is an end, a turn of its own side (a pick), or all turns of the other side, each with
its answer (a reply). A shared part is one object that stands in several places."""
import re
from dataclasses import dataclass, field
from typing import Dict, List, Optional, Tuple

from .points import PASS

# The words of a certificate: a pick with its turn, a reply, an end, a shared part, the end of a reply, or a turn in it.
_TOKEN = re.compile(r"=?!(?:[a-s]{2}|--)|=?\?|\.|\*[0-9]+|;|[a-s]{2}|--")

__all__ = ["Strategy", "cut_at_pass", "positions", "read_certificate", "size", "word_of"]


@dataclass(eq=False)
class Strategy:
    """`pick` is the turn of the strategy's side, and `then` what follows it; or `replies` has what follows each turn of the other
    side. Where neither stands, the strategy's side has won: a target is taken, or two passes were made, or it is the attacker's turn
    and the targets are unconditionally alive. `depth` says how many turns it can be resisted."""

    pick: Optional[str] = None
    then: Optional["Strategy"] = None
    replies: Dict[str, "Strategy"] = field(default_factory=dict)
    depth: int = 0

    def branches(self) -> List[Tuple[str, "Strategy"]]:
        """Each turn that stands here, with what follows it."""
        if self.pick is not None and self.then is not None:
            return [(self.pick, self.then)]
        return list(self.replies.items())


def read_certificate(line: str) -> Strategy:
    """The strategy of a line that `solve --cert` or `solve --cert --parts` wrote. Its moves aren't checked: `check` does that.

    Raises ValueError where the line breaks the grammar.
    """
    text = line.strip().partition(" ")[2]
    reader = _Reader(_TOKEN.findall(text))
    found = reader.tree(reader.next())
    if sum(map(len, reader.tokens)) < len(text) or reader.next():
        raise ValueError("text stands behind the certificate")
    return found


def positions(line: str) -> int:
    """How many positions with a turn to make stand in a certificate; a shared one counts once."""
    return line.count("!") + line.count("?")


class _Reader:
    """Reads words from the left. A certificate is at most 512 turns deep, and so are the calls."""

    def __init__(self, tokens: List[str]) -> None:
        self.tokens, self.left = tokens, iter(tokens)
        self.named: List[Strategy] = []

    def next(self) -> str:
        return next(self.left, "")

    def tree(self, word: str) -> Strategy:
        """The strategy that begins with the word."""
        if word == ".":
            return Strategy()
        if word[:1] == "*":
            return self.named[int(word[1:])]
        found, kind = Strategy(), word.lstrip("=")[:1]
        if kind == "!":
            found.pick = _turn(word[-2:])
            found.then = self.tree(self.next())
            found.depth = found.then.depth + 1
        elif kind == "?":
            turn = self.next()
            while turn != ";":
                then = self.tree(self.next())
                found.replies[_turn(turn)] = then
                found.depth = max(found.depth, then.depth + 1)
                turn = self.next()
        else:
            raise ValueError(f"the certificate breaks off at {word!r}")
        if word[0] == "=":
            self.named.append(found)
        return found


def _turn(word: str) -> str:
    return PASS if word == "--" else word


def word_of(turn: str) -> str:
    """A turn as certificates write it."""
    return "--" if turn == PASS else turn


def cut_at_pass(tree: str) -> str:
    """A certificate's tree that begins with a reply, with an end behind its pass, which stands last."""
    kept: List[str] = []
    opened = 0
    for word in _TOKEN.findall(tree):
        kept.append(word)
        opened += word.endswith("?") - (word == ";")
        if opened == 1 and word == "--":
            return "".join(kept) + ".;"
    raise ValueError("no pass is answered")


def size(strategy: Strategy, depth: int) -> int:
    """How many turns the strategy has, written out to so many turns deep."""
    known: Dict[Tuple[int, int], int] = {}

    def count(each: Strategy, left: int) -> int:
        key = (id(each), left)
        if key not in known:
            known[key] = sum(1 + count(then, left - 1) for _, then in each.branches()) if left else 0
        return known[key]

    return count(strategy, depth)
