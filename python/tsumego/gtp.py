"""tsumego-gtp: answers life-and-death problems for Go programs, by the Go Text Protocol, version 2.

A position comes by loadsgf, gogui-setup, set_free_handicap or play; moves count as history. The group is the one that the file marks, that
tsumego-target names, or that tsumego takes. owl_attack, owl_defend and dragon_status answer in GNU Go's words, genmove plays, and
gogui-analyze_commands, lz-analyze and kata-analyze show first moves. Each answer is proved. Where none was found in time, or where the
wall is open, the response is an error, never a guess.

The commands are read from standard input. list_commands lists them.
"""
import argparse
import re
import sys
from dataclasses import replace
from typing import Callable, Dict, Iterable, Iterator, List, Optional, TextIO, Tuple

from . import __version__
from .answers import KILLED, LIVES, REFUSED, Answer, Verdict, winner_of
from .asking import SECONDS, answer
from .board import BLACK, NAMES, WHITE, Board
from .command import Parser, seconds, status_of
from .inputs import UsageError, read_file
from .marking import Refused, marked
from .points import COLUMNS, PASS, editor_name, place, read_point, sgf_name
from .problems import MOVES, Problem, moves_of, problem_of, set_up
from .programs import ProgramError
from .sgf import GameTree, main_line
from .solving import Clock, strategy, verdict
from .strategy import Strategy
from .words import ko_said, listed

__all__ = ["Engine", "GtpError", "main"]

ANALYZE = (
    "gfx/First moves/tsumego-turns",
    "string/Status/dragon_status %p",
    "string/Ko/tsumego-ko",
    "varc/Strategy/tsumego-line %c",
    "none/Group/tsumego-target %p",
    "plist/Region/tsumego-region",
)
# So many moves of a strategy are shown.
LONGEST = 40


class GtpError(ValueError):
    """A command that fails. The text is the response."""


def vertex(turn: str, rows: int) -> str:
    """A turn as GTP writes it: `C7`, `PASS`."""
    return editor_name(turn, rows).upper()


def colour_of(word: str) -> str:
    colour = {"b": BLACK, "black": BLACK, "w": WHITE, "white": WHITE}.get(word.lower())
    if not colour:
        raise GtpError("invalid color")
    return colour


def is_ended(problem: Problem) -> bool:
    """Whether the last two turns were passes."""
    return [turn for _, turn in moves_of(problem.nodes[-2:])] == [PASS, PASS]


def fixed_handicap(size: int, number: int) -> List[str]:
    """The points for so many handicap stones, as the protocol fixes them. Raises GtpError where it fixes none."""
    most = 0 if size < 7 else 4 if size == 7 or size % 2 == 0 else 9
    if not 2 <= number <= most:
        raise GtpError("invalid number of stones")
    low, middle = 3 if size > 12 else 2, size // 2
    high = size - 1 - low
    # Columns and lines from below.
    corners, sides = [(low, low), (high, high), (low, high), (high, low)], [(low, middle), (high, middle), (middle, low), (middle, high)]
    places = (corners + sides)[: number - number % 2 if number > 4 else number]
    places += [(middle, middle)] if number > 4 and number % 2 else []
    return [sgf_name(column, size - 1 - line) for column, line in places]


class Engine:
    """A position with its history, and what was asked about it. A command is a method whose name begins with `do_`; it takes the words
    behind the command's name, and returns the response or raises GtpError."""

    def __init__(self, limit: float = SECONDS) -> None:
        self.limit = limit
        self.before: List[Problem] = []
        self.known: Dict[str, Verdict] = {}
        self.answers: Dict[str, Answer] = {}
        self.named: Optional[str] = None
        self.is_over = False
        self.begin(19)

    def begin(self, size: int) -> None:
        """An empty board."""
        self.start(Problem(size, size, (), (), ()))

    def start(self, problem: Problem) -> None:
        self.problem, self.named, self.is_over = problem, None, False
        self.before.clear()
        self.known.clear()
        self.answers.clear()

    def commands(self) -> List[str]:
        return sorted(name[3:].replace("__", "-") for name in dir(self) if name.startswith("do_"))

    def respond(self, name: str, words: List[str]) -> str:
        """The response to a command. Raises GtpError where it fails."""
        method: Optional[Callable[..., str]] = getattr(self, "do_" + name.replace("-", "__"), None)
        if not method or name not in self.commands():
            raise GtpError("unknown command")
        return method(*words)

    # ---- the protocol's own

    def do_protocol_version(self, *_: str) -> str:
        return "2"

    def do_name(self, *_: str) -> str:
        return "tsumego"

    def do_version(self, *_: str) -> str:
        return __version__

    def do_known_command(self, name: str = "", *_: str) -> str:
        return "true" if name in self.commands() else "false"

    def do_list_commands(self, *_: str) -> str:
        return "\n".join(self.commands())

    def do_quit(self, *_: str) -> str:
        self.is_over = True
        return ""

    def do_komi(self, *_: str) -> str:
        # (the score doesn't count)
        return ""

    def do_level(self, *_: str) -> str:
        # (a verdict has no levels)
        return ""

    def do_time_settings(self, *_: str) -> str:
        # (--seconds says how long an answer may take)
        return ""

    do_time_left = do_time_settings

    # ---- the position

    def do_boardsize(self, size: str = "", *_: str) -> str:
        if not size.isdecimal():
            raise GtpError("boardsize not an integer")
        if not 1 <= int(size) <= 19:
            raise GtpError("unacceptable size")
        self.begin(int(size))
        return ""

    def do_query_boardsize(self, *_: str) -> str:
        return str(self.problem.rows)

    def do_clear_board(self, *_: str) -> str:
        self.start(Problem(self.problem.columns, self.problem.rows, (), (), ()))
        return ""

    def do_loadsgf(self, *words: str) -> str:
        """A file, and perhaps the number of a move: the position in front of it. Without a number, or with 0, it is the one with marks, or
        the one in front of the solution."""
        has_number = len(words) > 1 and words[-1].isdecimal()
        number = int(words[-1]) if has_number else 0
        try:
            given = read_file(" ".join(words[: len(words) - has_number]))[0]
        except UsageError as fault:
            raise GtpError(f"cannot open or parse the file: {fault}") from fault
        if not given.tree:
            raise GtpError(f"cannot open or parse the file: {given.fault}")
        line = main_line(given.tree)
        moves = [at for at, node in enumerate(line) if node.has(*MOVES)]
        try:
            if number:
                # (a triangle says where the problem is; it goes again)
                nodes = [node.without("TR", "SQ") for node in line[: (moves + [len(line)])[min(number, len(moves) + 1) - 1]]] or [line[0].without(*MOVES)]
                self.start(replace(problem_of(GameTree(nodes[:-1] + [nodes[-1].add("TR", "aa")])), targets=(), region=()))
            else:
                self.start(problem_of(given.tree))
        except (ValueError, KeyError) as fault:
            raise GtpError(f"the file holds no problem: {fault}") from fault
        return NAMES[self.problem.to_move].lower()

    def do_gogui__setup(self, *words: str) -> str:
        self.set_up({self.point(word): colour_of(colour) for colour, word in self.pairs(words)}, BLACK)
        return ""

    def do_gogui__setup_player(self, word: str = "", *_: str) -> str:
        self.set_up(self.problem.position()[0].stones, colour_of(word))
        return ""

    def do_set_free_handicap(self, *words: str) -> str:
        self.set_up({self.point(word): BLACK for word in words}, WHITE)
        return ""

    def do_fixed_handicap(self, number: str = "", *_: str) -> str:
        """Puts handicap stones on the points that the protocol fixes, and names them."""
        if self.problem.position()[0].stones:
            raise GtpError("board not empty")
        points = fixed_handicap(self.problem.rows, int(number) if number.isdecimal() else 0)
        self.set_up(dict.fromkeys(points, BLACK), WHITE)
        return " ".join(vertex(point, self.problem.rows) for point in points)

    def do_play(self, colour: str = "", word: str = "", *_: str) -> str:
        self.play(colour_of(colour), self.turn_of(word))
        return ""

    def do_gogui__play_sequence(self, *words: str) -> str:
        for colour, word in self.pairs(words):
            self.do_play(colour, word)
        return ""

    def do_undo(self, *_: str) -> str:
        if not self.before:
            raise GtpError("cannot undo")
        self.problem = replace(self.before.pop(), targets=self.problem.targets, region=self.problem.region)
        return ""

    def do_showboard(self, *_: str) -> str:
        board, to_move = self.problem.position()
        targets, looks = set(self.problem.targets), {BLACK: "X", WHITE: "O", None: "."}
        letters = "   " + " ".join(COLUMNS[: board.columns])
        lines = [letters]
        for row in range(board.rows):
            points = [sgf_name(column, row) for column in range(board.columns)]
            drawn = " ".join("T" if point in targets and point in board.stones else looks[board.stones.get(point)] for point in points)
            lines.append(f"{board.rows - row:2} {drawn} {board.rows - row}")
        return "\n" + "\n".join(lines + [letters, f"{NAMES[to_move]} to move; X is Black, T the group"])

    def do_list_stones(self, colour: str = "", *_: str) -> str:
        board, _to_move = self.problem.position()
        return " ".join(vertex(point, board.rows) for point in board.of(colour_of(colour)))

    def do_captures(self, colour: str = "", *_: str) -> str:
        """How many stones of the other side a colour has taken since the setup."""
        wanted, board, _to_move = colour_of(colour), *replace(self.problem, nodes=self.problem.nodes[:1]).position()
        taken = [board.play(*turn) for turn in self.turns()]
        return str(sum(len(stones) for (by, turn), stones in zip(self.turns(), taken) if by == wanted and turn not in stones))

    def do_move_history(self, *_: str) -> str:
        """The moves, the last one first."""
        return "\n".join(f"{NAMES[colour].lower()} {vertex(turn, self.problem.rows)}" for colour, turn in reversed(self.turns()))

    # ---- the group and its region

    def do_tsumego__target(self, word: str = "", *_: str) -> str:
        self.named = self.stone(word)
        self.problem = replace(self.problem, targets=(), region=())
        return ""

    def do_tsumego__region(self, *words: str) -> str:
        """Without words the region; with them the points that it has from now on, or `auto`."""
        if words and words[0] != "auto":
            self.problem = replace(self.marks(), region=tuple(dict.fromkeys(map(self.point, words))))
        elif words:
            targets = self.problem.targets
            self.problem, self.named = replace(self.problem, targets=(), region=()), self.named or (targets[0] if targets else None)
        return " ".join(vertex(point, self.problem.rows) for point in self.marks().region)

    def do_set_search_diamond(self, word: str = "", distance: str = "", *_: str) -> str:
        """As GNU Go's: the region has the points so near."""
        if not distance.isdecimal():
            raise GtpError("distance not an integer")
        column, row = place(self.point(word))
        near = [point for point in self.problem.position()[0].points() if abs(place(point)[0] - column) + abs(place(point)[1] - row) <= int(distance)]
        if not self.problem.targets and self.problem.position()[0].stones.get(self.point(word)):
            self.named = self.point(word)
        self.problem = replace(self.problem, targets=self.problem.targets or (self.named or self.marks().targets[0],), region=tuple(near))
        return ""

    # ---- who wins

    def do_owl_attack(self, word: str = "", *_: str) -> str:
        problem = self.marks(self.stone(word) if word else None)
        found = self.verdict(problem, problem.attacker)
        return f"1 {vertex(found.turn or PASS, problem.rows)}" if found.word == KILLED else "0"

    def do_owl_defend(self, word: str = "", *_: str) -> str:
        problem = self.marks(self.stone(word) if word else None)
        found = self.verdict(problem, problem.defender)
        if found.word == KILLED:
            return "0"
        is_safe = self.verdict(problem, problem.attacker).word == LIVES
        return f"1 {vertex(PASS if is_safe else found.turn or PASS, problem.rows)}"

    def do_dragon_status(self, word: str = "", *_: str) -> str:
        attack, defend = self.do_owl_attack(word), self.do_owl_defend(word)
        if attack == "0":
            return "alive"
        return "dead" if defend == "0" else f"critical {attack[2:]} {defend[2:]}"

    def do_tsumego__ko(self, *_: str) -> str:
        """Whether a ko decides, where the side to move begins. The other commands know no ko threats."""
        found = self.answer(self.problem.to_move)
        assert found.ko
        if found.ko.decides is None:
            return "it isn't known whether a ko decides"
        return ko_said(found) or "no ko decides"

    def do_reg_genmove(self, colour: str = "", *_: str) -> str:
        return vertex(self.turn(colour_of(colour)), self.problem.rows)

    def do_genmove(self, colour: str = "", *_: str) -> str:
        turn = self.turn(colour_of(colour))
        self.play(colour_of(colour), turn)
        return vertex(turn, self.problem.rows)

    def do_top_moves_black(self, *_: str) -> str:
        return self.top_moves(BLACK)

    def do_top_moves_white(self, *_: str) -> str:
        return self.top_moves(WHITE)

    def top_moves(self, colour: str) -> str:
        """The first moves that win, each with the same weight. None where none wins."""
        return " ".join(f"{vertex(turn, self.problem.rows)} 1.00" for turn in self.answer(colour).winning)

    # ---- pictures and analysis

    def do_gogui__analyze_commands(self, *_: str) -> str:
        return "\n".join(ANALYZE)

    def do_tsumego__turns(self, *_: str) -> str:
        """The first moves as GoGui draws them."""
        found = self.answer(self.problem.to_move)
        problem = found.problem
        assert problem

        def drawn(word: str, turns: Iterable[str]) -> List[str]:
            named = " ".join(vertex(turn, self.problem.rows) for turn in turns if turn != PASS)
            return [f"{word} {named}"] if named else []

        lines = drawn("COLOR green", found.winning) + drawn("COLOR red", [each.turn for each in found.failing]) + drawn("TRIANGLE", problem.targets)
        winner = found.winner or BLACK
        return "\n".join(lines + [f"TEXT {NAMES[problem.to_move]} begins, {NAMES[winner]} {'lives' if winner == problem.defender else 'kills'}"])

    def do_tsumego__line(self, colour: str = "", *_: str) -> str:
        """The moves of the winner's strategy, with the longest resistance, where this colour begins."""
        problem = self.to_begin(self.marks(), colour_of(colour))
        self.verdict(problem, problem.to_move)
        found = strategy(problem, Clock(self.limit))
        if not found:
            raise GtpError("unsettled: the strategy is too long")
        return " ".join(vertex(turn, problem.rows) for turn in longest(found))

    def do_lz__analyze(self, *words: str) -> str:
        return self.analyzed(words, lambda wins: f"visits {999 * wins + 1} winrate {10000 * wins} prior {10000 * wins} lcb {10000 * wins}")

    def do_kata__analyze(self, *words: str) -> str:
        return self.analyzed(words, lambda wins: f"visits {999 * wins + 1} utility {2 * wins - 1} winrate {wins} scoreLead 0 prior {wins} lcb {wins}")

    def analyzed(self, words: Tuple[str, ...], numbers: Callable[[int], str]) -> str:
        """The first moves of which it is proved that they win or fail, as Leela Zero and KataGo write them. `allow` names some of them.
        Those that win have the more visits, since clients weigh the winning rate of the position by these."""
        has_colour = words and words[0].lower() in ("b", "w", "black", "white")
        found = self.answer(colour_of(words[0]) if has_colour else self.problem.to_move)
        problem = found.problem
        assert problem
        allowed = {self.turn_of(each) for at, word in enumerate(words) if word == "allow" for each in "".join(words[at + 2 : at + 3]).split(",") if each}
        shown = [(turn, 1, "") for turn in found.winning] + [(each.turn, 0, each.refutation or "") for each in found.failing]
        parts: List[str] = []
        for turn, wins, then in shown:
            if not allowed or turn in allowed:
                line = " ".join(vertex(each, problem.rows).replace("PASS", "pass") for each in (turn, then) if each)
                parts.append(f"info move {line.partition(' ')[0]} {numbers(wins)} order {len(parts)} pv {line}")
        return " ".join(parts)

    # ---- what the commands have in common

    def pairs(self, words: Tuple[str, ...]) -> Iterator[Tuple[str, str]]:
        if len(words) % 2:
            raise GtpError("syntax error: a color and a vertex are wanted for each stone")
        return zip(words[::2], words[1::2])

    def turn_of(self, word: str) -> str:
        """A turn, of a vertex."""
        return PASS if word.lower() == PASS else self.point(word)

    def point(self, word: str) -> str:
        """A point, of a vertex."""
        if not re.fullmatch("[A-HJ-Ta-hj-t][0-9]{1,2}", word):
            raise GtpError("invalid vertex")
        try:
            return read_point(word, self.problem.columns, self.problem.rows)
        except ValueError as fault:
            raise GtpError("invalid vertex") from fault

    def stone(self, word: str) -> str:
        point = self.point(word)
        if point not in self.problem.position()[0].stones:
            raise GtpError("vertex must not be empty")
        return point

    def turns(self) -> List[Tuple[str, str]]:
        """The turns of the history, each with its colour."""
        return moves_of(self.problem.nodes)

    def set_up(self, stones: Dict[str, str], to_move: str) -> None:
        """A position without history. The marks go."""
        board = Board(self.problem.columns, self.problem.rows, stones)
        if any(not board.has_liberty(point) for point in stones):
            raise GtpError("a stone has no liberty")
        self.start(Problem(board.columns, board.rows, (set_up(board, to_move),), (), ()))

    def play(self, colour: str, turn: str) -> None:
        """Makes a turn. The other side is taken to have passed where it was to move."""
        problem = self.problem
        if is_ended(problem):
            # (the game goes on from the position)
            problem = problem.anew()
        if problem.to_move != colour and turn != PASS:
            problem = problem.after(PASS)
        if turn != PASS and turn not in replace(problem, region=(turn,)).legal_turns():
            raise GtpError("illegal move")
        if problem.to_move == colour:
            problem = problem.with_moves([(colour, turn)])
        self.before.append(self.problem)
        self.problem = problem

    def marks(self, stone: Optional[str] = None) -> Problem:
        """The problem with marks: around the stone, if it isn't of the marked group. Marks that are made stay, whatever is played."""
        problem, board = self.problem, self.problem.position()[0]
        if stone is None and self.is_taken():
            raise GtpError("the group is taken")
        if problem.targets and problem.region and (stone is None or any(each in board.stones and stone in board.chain(each) for each in problem.targets)):
            return problem
        named = stone or self.named
        # (the position as it is now)
        shown = replace(problem.anew(), region=())
        try:
            found = marked(GameTree(shown.marked_nodes()), named)
        except Refused as fault:
            raise GtpError(str(fault)) from fault
        ways = [" and ".join(vertex(each, problem.rows) for each in stones) for stones, _ in found.ways]
        if ways[0]:
            raise GtpError(f"not enclosed: close one of {listed(ways, 'or')}")
        made = replace(problem, targets=found.ways[0][1].targets, region=found.ways[0][1].region)
        if not problem.targets:
            self.problem = made
        return made

    def is_taken(self) -> bool:
        """Whether a stone of the marked group is gone."""
        board, _ = self.problem.position()
        return any(target not in board.stones for target in self.problem.targets)

    def to_begin(self, problem: Problem, colour: str) -> Problem:
        return problem if problem.to_move == colour else problem.with_other_side()

    def verdict(self, problem: Problem, colour: str) -> Verdict:
        """Who wins where the colour begins. Raises GtpError where that isn't known."""
        asked = self.to_begin(problem, colour)
        if is_ended(asked):
            return Verdict(LIVES)
        text = asked.text()
        if text not in self.known or not self.known[text].is_settled:
            self.known[text] = verdict(asked, Clock(self.limit))
        found = self.known[text]
        if found.word == REFUSED:
            raise GtpError(f"refused {found.detail}")
        if found.detail == "memory":
            raise GtpError("unsettled, as memory was too little: try fewer points by tsumego-region")
        if not found.is_settled:
            raise GtpError(f"unsettled after {self.limit:.0f} seconds: try more --seconds, or fewer points by tsumego-region")
        return found

    def answer(self, colour: str) -> Answer:
        """All first moves of a colour. Raises GtpError where who wins isn't known."""
        problem = self.to_begin(self.marks(), colour)
        self.verdict(problem, colour)
        text = problem.text()
        if text not in self.answers:
            self.answers[text] = answer(GameTree(problem.marked_nodes()), None, self.limit)
        found = self.answers[text]
        if not found.verdict.is_settled:
            raise GtpError(f"unsettled {found.why}".strip())
        return found

    def turn(self, colour: str) -> str:
        """A turn that wins; a pass where the group lives without, or is taken; else the one that can be resisted longest."""
        if self.is_taken():
            return PASS
        problem = self.to_begin(self.marks(), colour)
        found = self.verdict(problem, colour)
        if winner_of(problem, found) == colour:
            is_safe = colour == problem.defender and self.verdict(problem, problem.attacker).word == LIVES
            return PASS if is_safe else found.turn or PASS
        ours = strategy(problem, Clock(self.limit))
        if ours and ours.replies:
            return longest(ours)[0]
        return PASS if ours else problem.legal_turns()[0]


def longest(found: Strategy) -> List[str]:
    """The turns of a strategy with the longest resistance; a pass resists least."""
    turns: List[str] = []
    while found.branches() and len(turns) < LONGEST:
        turn, found = max(found.branches(), key=lambda branch: (branch[0] != PASS, branch[1].depth))
        turns.append(turn)
    return turns


def serve(engine: Engine, lines: Iterable[str], out: TextIO) -> int:
    """Answers the commands until `quit` or the end. An analysis ends with the next line."""
    is_open = False
    for line in lines:
        if is_open:
            out.write("\n")
            is_open = False
        words = re.sub("[\x00-\x08\x0b-\x1f\x7f]", "", line.partition("#")[0]).split()
        number = words.pop(0) if words and words[0].isdecimal() else ""
        if words:
            try:
                mark, said = "=", engine.respond(words[0], words[1:])
                is_open = words[0] in ("lz-analyze", "kata-analyze")
            except (GtpError, ProgramError) as fault:
                mark, said = "?", " ".join(str(fault).split())
            text = f"{mark}{number}\n{said}\n" if is_open else f"{mark}{number} {said}".rstrip(" ") + "\n\n"
            out.write(text)
        out.flush()
        if engine.is_over:
            break
    if is_open:
        out.write("\n")
        out.flush()
    return 0


def parser() -> Parser:
    made = Parser("tsumego-gtp", "tsumego-gtp [--seconds N]", __doc__)
    made.add_argument("--seconds", type=seconds, default=SECONDS, metavar="N", help=f"how long an answer may take ({SECONDS:.0f})")
    return made


def run(args: argparse.Namespace) -> int:
    return serve(Engine(args.seconds), sys.stdin, sys.stdout)


def main(words: Optional[List[str]] = None) -> int:
    """Runs the command; returns its status."""
    args = parser().parse_args(words)
    return status_of("tsumego-gtp", lambda: run(args), "nothing is kept")


if __name__ == "__main__":
    sys.exit(main())
