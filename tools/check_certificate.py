#!/usr/bin/env python3
"""Checks an answer of tsumego without tsumego: does the certificate win for the problem?

    tools/check_certificate.py [--long] [--parts] < FILE

FILE holds a problem in SGF and behind it a certificate, as for `tsumego check`. The answer is `valid` (status 0), `invalid`
or `refused NUMBER` (status 1); other words are refused with status 2. With --long the input may have more than 1,048,576
bytes. With --parts the certificate may share parts: `=` in front of a `!` or `?` names the tree that begins there, names are
counted from 0 in the order in which the named trees end, and `*n` stands for the tree of the name n. Where such a part
doesn't fit, the answer is `refused 32`. Then `.` may also stand where the attacker is to move and the targets of the side, the
defender, are unconditionally alive.

This file follows docs/FORMATS.md and shares nothing with the program. Whoever has read it need not believe the program.
"""
import functools
import re
import sys

MOST_BYTES, MOST_TURNS, MOST_LEVELS = 1_048_576, 2_000, 512
BLACK, WHITE, EMPTY = "X", "O", "."
OTHER = {BLACK: WHITE, WHITE: BLACK}


class Refused(Exception):
    """The input isn't a problem with a certificate; the number says why."""


# ---- SGF: the main line of a game tree

# White space, and then a mark, the name of a property, or a value.
TOKEN = re.compile(rb"[\t-\r ]*(?:([();])|([A-Za-z0-9]+)|\[((?:[^]\\]|\\.)*)\])", re.DOTALL)

# What may stand behind what: marks, names (n) and values (v).
BEHIND = {"": "(", "(": ";", ";": ";()n", "n": "v", "v": ";()nv", ")": "()"}


def read_tree(data):
    """The nodes of the main line, each with the values of its properties by name, and the bytes behind the tree."""
    nodes, open_trees, last, at = [], 0, "", max(data.find(b"("), 0)
    in_main_line = True
    while True:
        token = TOKEN.match(data, at)
        if token is None:
            raise Refused(1)
        mark, name, value = token.groups()
        kind = mark.decode() if mark else "n" if name else "v"
        if kind not in BEHIND[last]:
            raise Refused(1)
        if kind == "(":
            open_trees += 1
        elif kind == ")":
            # Nodes stand before sub-trees, so the main line ends where the first tree does.
            open_trees, in_main_line = open_trees - 1, False
            if open_trees == 0:
                return nodes, data[token.end() :]
        elif kind == "n":
            if not re.search(rb"[A-Z]", name):
                raise Refused(1)
            ident = re.sub(rb"[a-z]", b"", name).decode()
        elif in_main_line and kind == ";":
            nodes.append({})
        elif in_main_line:
            nodes[-1].setdefault(ident, []).append(value.strip())
        last, at = kind, token.end()


def number(word):
    """The number that the word spells, or None."""
    digits = re.fullmatch(rb"\+?0*([0-9]{1,5})", word)
    return int(digits[1]) if digits and int(digits[1]) <= 65_535 else None


# ---- The game: a point is the number row * columns + column, a board has a letter for each point, and a turn is a point or
# ---- the pass, which has the number behind the last point


class Game:
    def __init__(self, columns, rows):
        self.columns, self.rows, self.passing = columns, rows, columns * rows
        self.near = [[] for _ in range(self.passing)]
        for point in range(self.passing):
            if point % columns > 0:
                self.near[point].append(point - 1)
                self.near[point - 1].append(point)
            if point >= columns:
                self.near[point].append(point - columns)
                self.near[point - columns].append(point)
        self.board = EMPTY * self.passing
        self.earlier = {self.board}
        self.to_move, self.passes, self.turns = BLACK, 0, 0

    def point(self, word):
        """The point that two letters name, column and row, or None."""
        if re.fullmatch(rb"[a-s][a-s]", word) is None:
            return None
        column, row = word[0] - ord("a"), word[1] - ord("a")
        return row * self.columns + column if column < self.columns and row < self.rows else None

    def points(self, values):
        """The set of points that values name: points, and rectangles by two opposite corners."""
        found = set()
        for value in values:
            corners = [self.point(word) for word in value.split(b":")]
            if None in corners or len(corners) > 2:
                raise Refused(12)
            columns = sorted(corner % self.columns for corner in corners)
            rows = sorted(corner // self.columns for corner in corners)
            for row in range(rows[0], rows[-1] + 1):
                found.update(row * self.columns + column for column in range(columns[0], columns[-1] + 1))
        return found

    def dead_chain(self, board, point):
        """The stones of the chain at the point, where it has no liberty; else nothing."""
        colour, chain, seen = board[point], [point], {point}
        for stone in chain:
            for beside in self.near[stone]:
                if board[beside] == EMPTY:
                    return []
                if board[beside] == colour and beside not in seen:
                    seen.add(beside)
                    chain.append(beside)
        return chain

    @functools.lru_cache(100_000)
    def after_play(self, board, colour, point):
        """The board after a stone on an empty point: the other's chains without liberties are taken, and then one's own."""
        board = list(board)
        board[point] = colour
        for place in self.near[point] + [point]:
            if board[place] == (colour if place == point else OTHER[colour]):
                for stone in self.dead_chain(board, place):
                    board[stone] = EMPTY
        return "".join(board)

    def make(self, turn, board):
        """The turn, after which the board stands there."""
        self.passes = self.passes + 1 if turn == self.passing else 0
        self.board, self.to_move = board, OTHER[self.to_move]
        self.earlier.add(board)

    # -- A node of the record: stones are set up, or a move is made

    def set_up(self, node):
        black, white, empty = (self.points(node.get(name, [])) for name in ("AB", "AW", "AE"))
        to_move = {b"B": BLACK, b"W": WHITE}.get(node.get("PL", [b"B"])[0][:1].upper())
        if to_move is None:
            raise Refused(12)
        if black & white or black & empty or white & empty:
            raise Refused(13)
        board = list(self.board)
        for points, colour in ((black, BLACK), (white, WHITE), (empty, EMPTY)):
            for point in points:
                board[point] = colour
        if any(board[point] != EMPTY and self.dead_chain(board, point) for point in range(self.passing)):
            raise Refused(15)
        self.board, self.to_move, self.passes = "".join(board), to_move, 0
        self.earlier = {self.board}

    def record_turn(self, turn):
        if self.passes == 2:
            raise Refused(18)
        if self.turns == MOST_TURNS:
            raise Refused(19)
        board = self.board
        if turn != self.passing:
            if self.board[turn] != EMPTY:
                raise Refused(16)
            board = self.after_play(self.board, self.to_move, turn)
            if board in self.earlier:
                raise Refused(17)
        self.turns += 1
        self.make(turn, board)

    def take(self, node):
        moves = [(BLACK, value) for value in node.get("B", [])] + [(WHITE, value) for value in node.get("W", [])]
        is_setup = any(name in node for name in ("AB", "AW", "AE")) or ("PL" in node and not moves)
        if len(moves) > 1 or (is_setup and moves):
            raise Refused(14)
        if is_setup:
            self.set_up(node)
        for colour, value in moves:
            turn = self.passing if value in (b"", b"tt") else self.point(value)
            if turn is None:
                raise Refused(12)
            if colour != self.to_move:
                self.record_turn(self.passing)
            self.record_turn(turn)

    # -- The problem: its targets, its region and who defends

    def set_problem(self, node):
        self.targets = self.points(node["TR"])
        self.region = self.points(node["SQ"]) if "SQ" in node else set(range(self.passing))
        colours = {self.board[target] for target in self.targets}
        if EMPTY in colours:
            raise Refused(22)
        if len(colours) == 2:
            raise Refused(23)
        self.defender = colours.pop()
        self.passes = 0

    def winner(self):
        if any(self.board[target] == EMPTY for target in self.targets):
            return OTHER[self.defender]
        return self.defender if self.passes == 2 else None

    def areas(self, points):
        """The points as areas of adjacent ones, each with the points beside it."""
        found, points = [], set(points)
        while points:
            area, beside = [points.pop()], set()
            for point in area:
                nearby = points.intersection(self.near[point])
                points -= nearby
                area.extend(nearby)
                beside.update(self.near[point])
            found.append((set(area), beside.difference(area)))
        return found

    def is_alive(self):
        """Whether the targets are unconditionally alive. A chain of the defender stays that touches an empty point outside the region
        or all points of two eyes; the others are left out, till all stay. An eye is an area without stones of the defender that
        has an empty point, and beside it only stones of chains that stay."""
        board, outside = self.board, set(range(self.passing)) - self.region
        own = {point for point in range(self.passing) if board[point] == self.defender}
        chains, eyes = self.areas(own), self.areas(set(range(self.passing)) - own)
        eyes = [(eye, walls) for eye, walls in eyes if any(board[point] == EMPTY for point in eye)]
        while True:
            eyes = [(eye, walls) for eye, walls in eyes if walls <= own]
            alive = [
                (chain, touched)
                for chain, touched in chains
                if any(board[point] == EMPTY for point in touched & outside) or sum(eye <= touched for eye, _ in eyes) > 1
            ]
            if len(alive) == len(chains):
                return self.targets <= own
            chains, own = alive, set().union(*(chain for chain, _ in alive))

    def position(self):
        return self.board, self.to_move, self.passes

    def legal(self, turns):
        """Those of the turns that are legal, each with the board after it, and the boards that plays may not repeat."""
        boards, repeated = {}, set()
        for turn in turns:
            if turn == self.passing:
                boards[turn] = self.board
            elif turn in self.region and self.board[turn] == EMPTY:
                board = self.after_play(self.board, self.to_move, turn)
                if board in self.earlier:
                    repeated.add(board)
                else:
                    boards[turn] = board
        return boards, repeated


def read_problem(nodes):
    """The game as it stands at the first node with TR."""
    if number(nodes[0].get("GM", [b"1"])[0]) != 1:
        raise Refused(10)
    sides = [number(word) for word in nodes[0].get("SZ", [b"19"])[0].split(b":")]
    if len(sides) > 2 or not all(side is not None and 1 <= side <= 19 for side in sides):
        raise Refused(11)
    game = Game(sides[0], sides[-1])
    for node in nodes:
        game.take(node)
        if "TR" in node:
            game.set_problem(node)
            return game
    raise Refused(20)


# ---- The certificate: read from the left and replayed on the way


class Footprint:
    """Where a tree that wins at a position wins too: at the same position behind other boards, if all that it needs are
    among them, boards that plays of the other side may not repeat, and none that it avoids, which its own plays make.
    It never changes, so that many trees share one. What it avoids is in a few sets, which it shares with others too: each
    has more than twice as many boards as the next."""

    def __init__(self, needs=frozenset(), avoids=()):
        self.needs, self.avoids = needs, avoids

    def avoiding(self, boards):
        """The sets to avoid with one more, together with those that aren't much larger."""
        avoids = self.avoids
        while avoids and len(avoids[-1]) <= 2 * len(boards):
            avoids, boards = avoids[:-1], avoids[-1] | boards
        return avoids + (boards,)

    def before(self, board, is_own):
        """In front of the play that made the board, which is the side's own or isn't."""
        needs = self.needs - {board} if board in self.needs else self.needs
        is_new = is_own and not any(board in boards for boards in self.avoids)
        return Footprint(needs, self.avoiding(frozenset([board])) if is_new else self.avoids)

    def joined(self, other):
        """Both in one."""
        found = Footprint(self.needs if other.needs <= self.needs else self.needs | other.needs, self.avoids)
        for boards in other.avoids:
            if not any(boards is held or boards <= held for held in found.avoids):
                found.avoids = found.avoiding(boards)
        return found


class Certificate:
    def __init__(self, text, game, has_parts):
        self.text, self.at, self.game, self.has_parts = text, 0, game, has_parts
        # Of each named tree its footprint, where it stands and wins, its position and its depth.
        self.named, self.deepest, self.all_fit = [], 0, True
        if self.next(b"killed "):
            self.side = OTHER[game.defender]
        elif self.next(b"lives "):
            self.side = game.defender
        else:
            raise Refused(30)

    def next(self, word):
        """Whether the word stands here; it is then read."""
        stands = self.text.startswith(word, self.at)
        self.at += len(word) if stands else 0
        return stands

    def goes_to(self, level):
        """A turn of the level stands here, or in a part that stands here."""
        if level > MOST_LEVELS:
            raise Refused(31)
        self.deepest = max(self.deepest, level)

    def turn(self, level, last):
        """The turn here; those of one `?` rise."""
        word = self.text[self.at : self.at + 2]
        turn = self.game.passing if word == b"--" else self.game.point(word)
        if turn is None or turn <= last:
            raise Refused(30)
        self.goes_to(level)
        self.at += 2
        return turn

    def tree_after(self, turn, board, level):
        """The tree here, behind the turn: its footprint as it is in front of the turn, or None where it doesn't win."""
        game, before = self.game, self.game.position()
        game.make(turn, board)
        found = self.tree(level + 1, True)
        game.board, game.to_move, game.passes = before
        if turn != game.passing:
            game.earlier.remove(board)
            if found:
                found = found.before(board, game.to_move == self.side)
        return found

    def tree(self, level, is_reached):
        """Reads the tree here: its footprint, or None where it doesn't win, or no play reaches it and it is read only."""
        game = self.game
        if self.next(b"."):
            return Footprint() if is_reached and (game.winner() == self.side or self.ends_at_life()) else None
        if self.has_parts and self.next(b"*"):
            return self.part(level, is_reached)
        if self.has_parts and self.next(b"="):
            return self.tree_with_name(level, is_reached)
        goes_on = is_reached and game.winner() is None
        if self.next(b"!"):
            turn = self.turn(level, -1)
            legal, _ = game.legal([turn]) if goes_on and game.to_move == self.side else ({}, None)
            return self.tree_after(turn, legal[turn], level) if turn in legal else self.tree(level + 1, False)
        if not self.next(b"?"):
            raise Refused(30)
        wins = goes_on and game.to_move != self.side
        unanswered, repeated = game.legal(range(game.passing + 1)) if wins else ({}, set())
        turn, found = -1, Footprint(frozenset(repeated))
        while not self.next(b";"):
            turn = self.turn(level, turn)
            if turn not in unanswered:
                self.tree(level + 1, False)
                continue
            answer = self.tree_after(turn, unanswered.pop(turn), level)
            wins = wins and answer is not None
            if wins and self.has_parts:
                found = found.joined(answer)
        return found if wins and not unanswered else None

    # -- Life and parts

    def ends_at_life(self):
        """Whether the tree may end here though nobody has won: the attacker is to move, and the targets are alive."""
        game = self.game
        return self.has_parts and self.side == game.defender != game.to_move and game.is_alive()

    def tree_with_name(self, level, is_reached):
        if not self.text.startswith((b"!", b"?"), self.at):
            raise Refused(30)
        outside, self.deepest = self.deepest, level - 1
        found = self.tree(level, is_reached)
        self.named.append((found, self.game.position(), self.deepest - level + 1))
        self.deepest = max(outside, self.deepest)
        return found

    def part(self, level, is_reached):
        digits = re.compile(rb"(0|[1-9][0-9]{0,8})(?![0-9])").match(self.text, self.at)
        if digits is None or int(digits[0]) >= len(self.named):
            raise Refused(30)
        self.at = digits.end()
        kept, position, depth = self.named[int(digits[0])]
        self.goes_to(level + depth - 1)
        if not is_reached:
            return None
        earlier = self.game.earlier
        if kept and position == self.game.position() and kept.needs <= earlier and all(map(earlier.isdisjoint, kept.avoids)):
            return kept
        self.all_fit = False
        return None


def answer(data, is_long=False, has_parts=False):
    """The line for the bytes of a problem and a certificate."""
    # A tree is at most as deep as MOST_LEVELS says.
    sys.setrecursionlimit(max(sys.getrecursionlimit(), 10 * MOST_LEVELS))
    try:
        if len(data) > MOST_BYTES and not is_long:
            raise Refused(2)
        nodes, text = read_tree(data)
        certificate = Certificate(text.strip(), read_problem(nodes), has_parts)
        found = certificate.tree(1, True)
        if certificate.at < len(certificate.text):
            raise Refused(30)
        if not certificate.all_fit:
            raise Refused(32)
        return "valid" if found else "invalid"
    except Refused as refused:
        return f"refused {refused}"


def main():
    options = set(sys.argv[1:])
    if options - {"--long", "--parts"}:
        print(__doc__, file=sys.stderr)
        return 2
    line = answer(sys.stdin.buffer.read(), "--long" in options, "--parts" in options)
    print(line)
    return 0 if line == "valid" else 1


if __name__ == "__main__":
    sys.exit(main())
