"""A slow model of tsumego: what `score`, `check` and `solve` with one worker answer, by the definitions alone.

It is written anew from docs/FORMATS.md: lists, sets and recursion, no table, no hash, nothing that is kept up to date. So a
play clears by looking for a path from each stone, a history is a list that is searched, and the numbers of a proof-number
search are computed from scratch before each step. It is for small inputs.
"""

MOST_BYTES, MOST_TURNS, MOST_LEVELS, MOST_PROOFS = 1_048_576, 2_000, 512, 4_096
INFINITE, MOST_NUMBER = 4_294_967_295, 1_000_000_000
BLANKS = b"\t\n\v\f\r "
BLACK, WHITE, EMPTY = "Black", "White", "empty"
ATTACKER, DEFENDER = "killed", "lives"


class Refused(Exception):
    """What is read is refused, with a number."""


def other(one):
    return {BLACK: WHITE, WHITE: BLACK, ATTACKER: DEFENDER, DEFENDER: ATTACKER}[one]


# ---- Game trees: a tree is its nodes and its sub-trees, a node is a list of properties


def skip(data, at):
    while at < len(data) and data[at] in BLANKS:
        at += 1
    return at


def stands(data, at, mark):
    return data[at : at + 1] == mark


def game_tree(data, at):
    """The tree that begins at a place, and the place behind it."""
    if not stands(data, at, b"("):
        raise Refused(1)
    nodes, subtrees = [], []
    at = skip(data, at + 1)
    while stands(data, at, b";"):
        properties = []
        at = skip(data, at + 1)
        while data[at : at + 1].isalnum():
            found, at = game_property(data, at)
            properties.append(found)
        nodes.append(properties)
    while stands(data, at, b"("):
        subtree, at = game_tree(data, at)
        subtrees.append(subtree)
        at = skip(data, at)
    if nodes == [] or not stands(data, at, b")"):
        raise Refused(1)
    return (nodes, subtrees), at + 1


def game_property(data, at):
    """A property, with the name that its upper-case letters and digits make."""
    name, values = b"", []
    while data[at : at + 1].isalnum():
        name += data[at : at + 1]
        at += 1
    if not any(byte in b"ABCDEFGHIJKLMNOPQRSTUVWXYZ" for byte in name):
        raise Refused(1)
    at = skip(data, at)
    while stands(data, at, b"["):
        begin = at = at + 1
        while not stands(data, at, b"]"):
            at += 2 if stands(data, at, b"\\") else 1
            if at >= len(data):
                raise Refused(1)
        values.append(data[begin:at])
        at = skip(data, at + 1)
    if values == []:
        raise Refused(1)
    return (bytes(byte for byte in name if byte not in b"abcdefghijklmnopqrstuvwxyz").decode(), values), at


def main_line(tree):
    nodes, subtrees = tree
    return nodes + (main_line(subtrees[0]) if subtrees else [])


def read_tree(data):
    """The main line of the first tree, and the bytes behind the tree."""
    if b"(" not in data:
        raise Refused(1)
    tree, at = game_tree(data, data.index(b"("))
    return main_line(tree), data[at:]


def values_of(node, name):
    """The values of all properties of the name."""
    return [value for found, values in node if found == name for value in values]


# ---- Values


def number_of(word):
    digits = word[1:] if word.startswith(b"+") else word
    if digits == b"" or any(byte not in b"0123456789" for byte in digits):
        return None
    number = 0
    for byte in digits:
        number = min(10 * number + byte - ord("0"), 65_536)
    return number if number < 65_536 else None


def size_of(value):
    """Columns and rows, or none."""
    sides = [number_of(word) for word in value.strip(BLANKS).split(b":")]
    if len(sides) == 1:
        sides *= 2
    return tuple(sides) if len(sides) == 2 and all(side is not None and 1 <= side <= 19 for side in sides) else None


def point_of(size, word):
    """The number of a point, row by row, or none."""
    columns, rows = size
    if len(word) != 2:
        return None
    column, row = word[0] - ord("a"), word[1] - ord("a")
    return row * columns + column if 0 <= column < columns and 0 <= row < rows else None


def set_of(size, values):
    """The points of a list: points and rectangles."""
    columns, points = size[0], set()
    for value in values:
        corners = [point_of(size, word) for word in value.strip(BLANKS).split(b":")]
        if None in corners or len(corners) > 2:
            raise Refused(12)
        across, down = [point % columns for point in corners], [point // columns for point in corners]
        points |= {
            row * columns + column
            for column in range(min(across), max(across) + 1)
            for row in range(min(down), max(down) + 1)
        }
    return points


def colour_of(value):
    return {b"B": BLACK, b"b": BLACK, b"W": WHITE, b"w": WHITE}.get(value.strip(BLANKS)[:1])


# ---- The rules: a board is a list of colours; a turn is the number of its point, and a pass the number behind all points


def points_of(size):
    return range(size[0] * size[1])


def pass_of(size):
    return size[0] * size[1]


def neighbours(size, point):
    columns, rows = size
    column, row = point % columns, point // columns
    beside = [(column - 1, row), (column + 1, row), (column, row - 1), (column, row + 1)]
    return [down * columns + across for across, down in beside if 0 <= across < columns and 0 <= down < rows]


def reaches(size, board, point, colour):
    """Whether a path of points of the point's own colour leads from it to a point of the colour."""
    area, edge = {point}, {point}
    while edge:
        beside = {near for one in edge for near in neighbours(size, one)}
        if any(board[near] == colour for near in beside):
            return True
        edge = {near for near in beside if board[near] == board[point]} - area
        area |= edge
    return False


def clear(size, board, colour):
    return [
        EMPTY if board[point] == colour and not reaches(size, board, point, EMPTY) else board[point]
        for point in points_of(size)
    ]


def play(size, board, colour, point):
    placed = [colour if place == point else board[place] for place in points_of(size)]
    return clear(size, clear(size, placed, other(colour)), colour)


def score(size, board):
    """Stones, and empty points that reach one colour alone, of Black and of White."""

    def area(colour):
        return sum(
            board[point] == colour
            or (
                board[point] == EMPTY
                and reaches(size, board, point, colour)
                and not reaches(size, board, point, other(colour))
            )
            for point in points_of(size)
        )

    return area(BLACK), area(WHITE)


# ---- Records and problems: a state is the history of boards, the last of which is the present one, the colour to move and
# ---- the passes in a row


def first_state(size):
    return [[EMPTY for _ in points_of(size)]], BLACK, 0


def set_up(size, state, node):
    black, white, empty = (set_of(size, values_of(node, name)) for name in ("AB", "AW", "AE"))
    to_move = colour_of((values_of(node, "PL") + [b"B"])[0])
    if to_move is None:
        raise Refused(12)
    if black & white or black & empty or white & empty:
        raise Refused(13)
    board = list(state[0][-1])
    for point in points_of(size):
        if point in black | white | empty:
            board[point] = BLACK if point in black else WHITE if point in white else EMPTY
    if any(board[point] != EMPTY and not reaches(size, board, point, EMPTY) for point in points_of(size)):
        raise Refused(15)
    return [board], to_move, 0


def record_turn(size, state, turn, count):
    history, to_move, passes = state
    if passes == 2:
        raise Refused(18)
    if count == MOST_TURNS:
        raise Refused(19)
    if turn == pass_of(size):
        return history, other(to_move), passes + 1
    if history[-1][turn] != EMPTY:
        raise Refused(16)
    board = play(size, history[-1], to_move, turn)
    if board in history:
        raise Refused(17)
    return history + [board], other(to_move), 0


def take_node(size, state, count, node):
    """The state and the count of turns after a node."""
    moves = [(BLACK, value) for value in values_of(node, "B")] + [(WHITE, value) for value in values_of(node, "W")]
    sets_up = any(values_of(node, name) for name in ("AB", "AW", "AE"))
    is_setup = sets_up or (values_of(node, "PL") != [] and moves == [])
    if (is_setup and moves != []) or len(moves) > 1:
        raise Refused(14)
    if is_setup:
        return set_up(size, state, node), count
    for colour, value in moves:
        word = value.strip(BLANKS)
        turn = pass_of(size) if word in (b"", b"tt") else point_of(size, word)
        if turn is None:
            raise Refused(12)
        if state[1] != colour:
            state, count = record_turn(size, state, pass_of(size), count), count + 1
        state, count = record_turn(size, state, turn, count), count + 1
    return state, count


def size_of_first(node):
    game, size = values_of(node, "GM"), values_of(node, "SZ")
    if game != [] and number_of(game[0].strip(BLANKS)) != 1:
        raise Refused(10)
    if size == []:
        return 19, 19
    if size_of(size[0]) is None:
        raise Refused(11)
    return size_of(size[0])


def record(nodes):
    """Black's score, White's, and whether the record is finished."""
    size = size_of_first(nodes[0])
    state, count = first_state(size), 0
    for node in nodes:
        state, count = take_node(size, state, count, node)
    return score(size, state[0][-1]) + (state[2] == 2,)


def problem(nodes):
    """The frame of a problem (size, region, targets, defending colour) and its state."""
    size = size_of_first(nodes[0])
    state, count = first_state(size), 0
    for node in nodes:
        state, count = take_node(size, state, count, node)
        if values_of(node, "TR") != []:
            targets, squares = set_of(size, values_of(node, "TR")), values_of(node, "SQ")
            region = set(points_of(size)) if squares == [] else set_of(size, squares)
            colours = {state[0][-1][target] for target in targets}
            if EMPTY in colours:
                raise Refused(22)
            if len(colours) > 1:
                raise Refused(23)
            return (size, region, targets, colours.pop()), (state[0], state[1], 0)
    raise Refused(20)


# ---- The game of a problem


def winner(frame, state):
    _, _, targets, _ = frame
    history, _, passes = state
    if any(history[-1][target] == EMPTY for target in targets):
        return ATTACKER
    return DEFENDER if passes == 2 else None


def side_to_move(frame, state):
    return DEFENDER if state[1] == frame[3] else ATTACKER


def after(frame, state, turn):
    history, to_move, passes = state
    if turn == pass_of(frame[0]):
        return history, other(to_move), passes + 1
    return history + [play(frame[0], history[-1], to_move, turn)], other(to_move), 0


def is_legal(frame, state, turn):
    size, region, _, _ = frame
    history, to_move, _ = state
    if winner(frame, state) is not None:
        return False
    if turn == pass_of(size):
        return True
    return turn in region and history[-1][turn] == EMPTY and play(size, history[-1], to_move, turn) not in history


def legal_turns(frame, state):
    return [turn for turn in range(pass_of(frame[0]) + 1) if is_legal(frame, state, turn)]


def value(frame, state):
    """The minimax value: who wins where both sides do their best."""
    if winner(frame, state) is not None:
        return winner(frame, state)
    side = side_to_move(frame, state)
    wins = any(value(frame, after(frame, state, turn)) == side for turn in legal_turns(frame, state))
    return side if wins else other(side)


# ---- Unconditional life, by its definition: sets of points are drawn up and tried


def subsets(points):
    points = sorted(points)
    for number in range(2 ** len(points)):
        yield {point for place, point in enumerate(points) if number >> place & 1}


def touched_by(size, stones, stone):
    """The points beside one to which adjacent stones of the set lead from the stone."""
    chain, edge = {stone}, {stone}
    while edge:
        edge = {near for one in edge for near in neighbours(size, one) if near in stones} - chain
        chain |= edge
    return {near for one in chain for near in neighbours(size, one)}


def is_eye(size, board, stones, eye):
    """Whether a set of points without a stone of the defender is an eye of the stones: it has an empty point, and each point
    beside one of it is of it or one of the stones."""
    beside = {near for point in eye for near in neighbours(size, point)}
    return any(board[point] == EMPTY for point in eye) and beside <= eye | stones


def are_unconditionally_alive(frame, board, stones):
    """Whether each of these stones touches an empty point outside the region, or each point of two disjoint eyes."""
    size, region, _, defender = frame
    spaces = subsets(point for point in points_of(size) if board[point] != defender)
    eyes = [eye for eye in spaces if is_eye(size, board, stones, eye)]
    for stone in stones:
        touched = touched_by(size, stones, stone)
        own = [eye for eye in eyes if eye <= touched]
        if any(board[point] == EMPTY and point not in region for point in touched):
            continue
        if not any(one.isdisjoint(two) for one in own for two in own):
            return False
    return True


def is_unconditionally_alive(frame, board):
    """Whether the targets are among some stones of the defender that are unconditionally alive."""
    size, _, targets, defender = frame
    return any(
        targets <= stones and are_unconditionally_alive(frame, board, stones)
        for stones in subsets(point for point in points_of(size) if board[point] == defender)
    )


# ---- Strategies: ("done",), ("pick", turn, strategy) and ("reply", [(turn, strategy), ..])


def depth(tree):
    if tree[0] == "done":
        return 0
    if tree[0] == "pick":
        return 1 + depth(tree[2])
    return max([1 + depth(answer) for _, answer in tree[1]], default=0)


def wins(frame, state, side, tree):
    """Whether the strategy wins for the side."""
    if tree[0] == "done":
        return winner(frame, state) == side
    if winner(frame, state) is not None or (side_to_move(frame, state) == side) != (tree[0] == "pick"):
        return False
    if tree[0] == "pick":
        return is_legal(frame, state, tree[1]) and wins(frame, after(frame, state, tree[1]), side, tree[2])
    answers = dict(tree[1])
    return all(
        turn in answers and wins(frame, after(frame, state, turn), side, answers[turn])
        for turn in legal_turns(frame, state)
    )


def turn_name(size, turn, passing):
    columns = size[0]
    return passing if turn == pass_of(size) else chr(ord("a") + turn % columns) + chr(ord("a") + turn // columns)


def tree_text(size, tree):
    if tree[0] == "done":
        return "."
    if tree[0] == "pick":
        return "!" + turn_name(size, tree[1], "--") + tree_text(size, tree[2])
    return "?" + "".join(turn_name(size, turn, "--") + tree_text(size, answer) for turn, answer in tree[1]) + ";"


def read_turn(size, text, at, level, least):
    word = text[at : at + 2]
    turn = pass_of(size) if word == b"--" else point_of(size, word)
    if turn is None or turn < least:
        raise Refused(30)
    if level > MOST_LEVELS:
        raise Refused(31)
    return turn, at + 2


def read_strategy(size, text, at, level):
    """The strategy that begins at a place, its turns at this level, and the place behind it."""
    if stands(text, at, b"."):
        return ("done",), at + 1
    if stands(text, at, b"!"):
        turn, at = read_turn(size, text, at + 1, level, 0)
        tree, at = read_strategy(size, text, at, level + 1)
        return ("pick", turn, tree), at
    if not stands(text, at, b"?"):
        raise Refused(30)
    answers, at, least = [], at + 1, 0
    while not stands(text, at, b";"):
        turn, at = read_turn(size, text, at, level, least)
        tree, at = read_strategy(size, text, at, level + 1)
        answers, least = answers + [(turn, tree)], turn + 1
    return ("reply", answers), at + 1


def read_certificate(size, text):
    """The side and its strategy."""
    for side in (ATTACKER, DEFENDER):
        word = side.encode() + b" "
        if text.startswith(word):
            tree, at = read_strategy(size, text, len(word), 1)
            if at == len(text):
                return side, tree
    raise Refused(30)


# ---- Proof-number search: proven is what the attacker wins


class Node:
    """A fresh leaf; a leaf that a strategy of a side closes; or expanded, with a node for each legal turn."""

    def __init__(self, state):
        self.state, self.closed, self.children = state, None, None


def settled_numbers(side):
    return (0, INFINITE) if side == ATTACKER else (INFINITE, 0)


def total_of(numbers):
    return INFINITE if INFINITE in numbers else min(sum(numbers), MOST_NUMBER)


def numbers_of(frame, node):
    """The proof number and the disproof number."""
    if winner(frame, node.state) is not None:
        return settled_numbers(winner(frame, node.state))
    if node.closed is not None:
        return settled_numbers(node.closed[0])
    if node.children is None:
        return 1, 1
    numbers = [numbers_of(frame, child) for _, child in node.children]
    proofs, disproofs = [proof for proof, _ in numbers], [disproof for _, disproof in numbers]
    if side_to_move(frame, node.state) == ATTACKER:
        return min(proofs), total_of(disproofs)
    return total_of(proofs), min(disproofs)


def settled_for(frame, node):
    proof, disproof = numbers_of(frame, node)
    return ATTACKER if proof == 0 else DEFENDER if disproof == 0 else None


def most_proving(frame, node):
    """The way from an undecided node to its most-proving leaf, both with it."""
    if node.children is None:
        return [node]
    which = 0 if side_to_move(frame, node.state) == ATTACKER else 1
    numbers = [numbers_of(frame, child)[which] for _, child in node.children]
    return [node] + most_proving(frame, node.children[numbers.index(min(numbers))][1])


def strategy_of(frame, node, side):
    """The strategy of a node that is settled for the side."""
    if winner(frame, node.state) is not None:
        return ("done",)
    if node.closed is not None:
        return node.closed[1]
    if side_to_move(frame, node.state) == side:
        turn, child = next((turn, child) for turn, child in node.children if settled_for(frame, child) == side)
        return ("pick", turn, strategy_of(frame, child, side))
    return ("reply", [(turn, strategy_of(frame, child, side)) for turn, child in node.children])


def position(state):
    """What two states of one position have in common: all but the boards that came before."""
    return state[0][-1], state[1], state[2]


def kept_strategy(frame, kept, state, room):
    """A side and its strategy, kept at a state of the same position, that wins here too and isn't deeper than the room."""
    for side in (ATTACKER, DEFENDER):
        found = [tree for place, owner, tree in kept if place == position(state) and owner == side]
        if found != [] and depth(found[-1]) <= room and wins(frame, state, side, found[-1]):
            return side, found[-1]
    return None


def search(frame, state, budget, most_depth, kept, grants):
    """What settles the state, as a side and its strategy; or the reason why nothing does. Grants are what is left of the
    total, in a list of one."""
    root, expanded = Node(state), 0
    while settled_for(frame, root) is None:
        way = most_proving(frame, root)
        leaf, leaf_depth = way[-1], len(way) - 1
        leaf.closed = kept_strategy(frame, kept, leaf.state, most_depth - leaf_depth)
        if leaf.closed is None:
            if expanded == budget:
                return "budget"
            if leaf_depth == most_depth:
                return "depth"
            if grants[0] == 0:
                return "total"
            grants[0] -= 1
            expanded += 1
            turns = legal_turns(frame, leaf.state)
            leaf.children = [(turn, Node(after(frame, leaf.state, turn))) for turn in turns]
        for node in reversed(way):
            side = settled_for(frame, node)
            if side is not None and node.children is not None and len(kept) < MOST_PROOFS:
                kept.append((position(node.state), side, strategy_of(frame, node, side)))
    side = settled_for(frame, root)
    return side, strategy_of(frame, root, side)


def solve(frame, state, budget, most_depth, grants):
    """The side that wins and its strategy, or the reason why that isn't known: each first turn is searched by itself, and
    the first one that wins ends it."""
    kept, answers, reasons = [], [], []
    side = side_to_move(frame, state)
    for turn in legal_turns(frame, state):
        found = search(frame, after(frame, state, turn), budget, most_depth - 1, kept, grants)
        if isinstance(found, str):
            reasons.append(found)
        elif found[0] == side:
            return side, ("pick", turn, found[1])
        else:
            answers.append((turn, found[1]))
    return reasons[0] if reasons else (other(side), ("reply", answers))


# ---- The program's lines


def score_text(nodes):
    black, white, is_finished = record(nodes)
    return [f"black {black} white {white} {'finished' if is_finished else 'unfinished'}"]


def solve_text(nodes, with_certificate=False, with_turns=False, budget=100_000, most_depth=512, total=362_000_000):
    frame, state = problem(nodes)
    # the problem and its turns spend one total, in the order of their lines
    limits = budget, most_depth, [total]
    found = solve(frame, state, *limits)
    turns = turn_texts(frame, state, limits) if with_turns else []
    if isinstance(found, str):
        return [f"unsettled {found}"] + turns
    side, tree = found
    first = " " + turn_name(frame[0], tree[1], "pass") if tree[0] == "pick" else ""
    return [side + first] + turns + ([f"{side} {tree_text(frame[0], tree)}"] if with_certificate else [])


def turn_texts(frame, state, limits):
    """A line for each legal turn: the side that wins after it, or why that isn't known."""
    lines = []
    for turn in legal_turns(frame, state):
        behind = after(frame, state, turn)
        found = winner(frame, behind) or solve(frame, behind, *limits)
        said = f"unsettled {found}" if found in ("budget", "depth", "total") else found if isinstance(found, str) else found[0]
        lines.append(f"  {turn_name(frame[0], turn, 'pass')} {said}")
    return lines


def check_text(data):
    try:
        if len(data) > MOST_BYTES:
            raise Refused(2)
        nodes, text = read_tree(data)
        frame, state = problem(nodes)
        side, tree = read_certificate(frame[0], text.strip(BLANKS))
        return "valid\n" if wins(frame, state, side, tree) else "invalid\n"
    except Refused as refused:
        return f"refused {refused}\n"


def trees_text(data, lines_of):
    """The lines for each tree of an input."""
    if len(data) > MOST_BYTES:
        return "1 refused 2\n"
    text, count = "", 0
    while count == 0 or b"(" in data:
        count += 1
        try:
            nodes, data = read_tree(data)
        except Refused:
            return text + f"{count} refused 1\n"
        try:
            first, *others = lines_of(nodes)
        except Refused as refused:
            first, others = f"refused {refused}", []
        text += "".join(line + "\n" for line in [f"{count} {first}"] + others)
    return text


def answer(words, data):
    """What the program writes for these words and this input, and its status. Options stand as `--budget=5`."""
    if words[0] == "check":
        text = check_text(data)
        return text, 0 if text == "valid\n" else 1
    if words[0] == "score":
        text = trees_text(data, score_text)
    else:
        names = {"--budget": "budget", "--depth": "most_depth", "--total": "total"}
        options = {names[word.partition("=")[0]]: int(word.partition("=")[2]) for word in words[1:] if "=" in word}
        text = trees_text(data, lambda nodes: solve_text(nodes, "--cert" in words, "--turns" in words, **options))
    return text, 1 if "refused" in text else 0
