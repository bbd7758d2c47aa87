"""Life and death in Go, answered by the proved program `tsumego`.

    >>> import tsumego
    >>> answer = tsumego.solve(open("problem.sgf", "rb").read())
    >>> answer.verdict.word, answer.winning
    ('killed', ('ca',))

`solve` answers one problem in full, `Answer` says what there is to read. `verdicts` says who wins each of many problems with marks.
`tsumego.sgf` reads and writes game trees.
"""
from .answers import Answer, Closing, Ko, Turn, Verdict
from .asking import answer, solve, with_strategies
from .many import verdicts
from .problems import Problem
from .programs import ProgramError
from .sgf import GameTree, Node, SgfError

__all__ = ["Answer", "Closing", "GameTree", "Ko", "Node", "Problem", "ProgramError", "SgfError", "Turn", "Verdict", "answer", "solve", "verdicts", "with_strategies"]
__version__ = "0.1.0"
