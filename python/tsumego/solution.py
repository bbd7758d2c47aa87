"""An answer as one game tree: the answer in the root's comment, each first move as a variation, the strategy behind it."""
from typing import List, Tuple

from .answers import Answer, Turn
from .board import NAMES, OTHER, Board
from .life import life
from .points import PASS
from .problems import Problem, move
from .sgf import GameTree, Node, escaped
from .strategy import Strategy, size
from .words import refutation, said

__all__ = ["solution"]

# All variations together have some so many nodes, and none is deeper.
MOST_NODES, DEEPEST = 2_000, 20


def solution(answer: Answer) -> GameTree:
    """The answer as a game tree. Raises ValueError where the answer has no problem, since it was refused."""
    problem = answer.problem
    if problem is None:
        raise ValueError(answer.why)
    nodes = problem.marked_nodes()
    nodes[0].properties[3:3] = [("CA", ["UTF-8"])] + ([("GN", [escaped(answer.name)])] if answer.name else [])
    labels = {True: "+", False: "-", None: "?"}
    nodes[-1].add("LB", *(f"{each.turn}:{labels[each.wins]}" for each in answer.turns if each.turn != PASS))
    comment = ([problem.comment, ""] if problem.comment else []) + said(answer)
    nodes[-1].add("C", escaped("\n".join(comment)))
    known = sorted((each for each in answer.turns if each.wins is not None), key=lambda each: not each.wins)
    return GameTree(nodes, [_first(problem, each, MOST_NODES // len(known)) for each in known])


def _first(problem: Problem, turn: Turn, share: int) -> GameTree:
    """The variation of a first turn, with so many nodes or few more."""
    board, colour = problem.position()
    strategy = turn.strategy or Strategy()
    depth = max((each for each in range(DEEPEST + 1) if size(strategy, each) <= share), default=0)
    tree = _Writer(problem, colour if turn.wins else OTHER[colour]).tree(board, colour, turn.turn, strategy, depth)
    words = "Wins." if turn.wins else f"Fails: {refutation(problem, turn, NAMES[OTHER[colour]])}."
    if turn.strategy and not strategy.branches():
        words += " " + tree.nodes[0].first("C")
    first = move(colour, turn.turn).add("TE" if turn.wins else "BM", "1").add("C", escaped(words))
    tree.nodes[0] = Node(first.properties + tree.nodes[0].without(colour, "C").properties)
    if turn.refutation and not turn.strategy:
        tree.nodes.append(move(OTHER[colour], turn.refutation))
    return tree


class _Writer:
    """Writes the strategy of one side as variations."""

    def __init__(self, problem: Problem, winner: str) -> None:
        self.problem, self.winner, self.defender = problem, winner, problem.defender

    def tree(self, board: Board, colour: str, turn: str, strategy: Strategy, depth: int) -> GameTree:
        """The node of a turn, and what follows it to the depth."""
        board, node = board.copy(), move(colour, turn)
        board.play(colour, turn)
        branches = self.in_order(board, OTHER[colour], strategy)
        if not branches:
            return GameTree([self.with_end(node, board)])
        if not depth:
            return GameTree([node.add("C", f"{NAMES[self.winner]} wins.")])
        trees = [self.tree(board, OTHER[colour], each, then, depth - 1) for each, then in branches]
        if len(trees) > 1:
            return GameTree([node], trees)
        return GameTree([node] + trees[0].nodes, trees[0].variations)

    def with_end(self, node: Node, board: Board) -> Node:
        """The node with words on how the strategy has won: a target is taken, or all are alive, or else there were two passes."""
        if self.winner != self.defender:
            return node.add("C", f"{NAMES[self.defender]}'s stones are captured.")
        alive, eyes = life(board, self.defender, self.problem.region)
        if not alive.issuperset(self.problem.targets):
            return node.add("C", f"{NAMES[self.winner]} lives.")
        other = NAMES[OTHER[self.defender]]
        return node.add("C", f"{NAMES[self.winner]} is alive. {other} can't take these stones any more.").add("T" + self.defender, *sorted(eyes))

    def in_order(self, board: Board, colour: str, strategy: Strategy) -> List[Tuple[str, Strategy]]:
        """What a strategy goes on with: the longest resistance first, suicides and the pass last."""

        def last(branch: Tuple[str, Strategy]) -> Tuple[bool, bool, int]:
            turn, then = branch
            return turn == PASS, turn != PASS and turn in board.copy().play(colour, turn), -then.depth

        branches = strategy.branches()
        return sorted(branches, key=last) if len(branches) > 1 else branches
