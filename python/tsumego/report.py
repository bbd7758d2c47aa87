"""Answers as one page of HTML that stands alone: it opens from a mail, and prints."""
from html import escape
from typing import Iterable, List

from .answers import Answer
from .diagram import diagram
from .points import PASS
from .words import said

__all__ = ["answer_card", "card", "page", "pictures"]

GREEN, RED, GREY = "#1a7f37", "#b42318", "#777"
STYLE = (
    "body{font:15px/1.4 serif;margin:1em auto;max-width:62em;padding:0 1em}section{break-inside:avoid;border-top:1px solid #999;padding:.5em 0}"
    "h1{font-size:22px}h2{font-size:16px;margin:.2em 0}p{margin:.2em 0}svg{max-width:47%;height:auto;margin-right:2%}.fault{background:#fdecea}"
    "@media print{body{margin:0;max-width:none}}"
)


def pictures(answer: Answer) -> str:
    """The problem, and beside it its first moves: green ones win, red ones fail."""
    problem = answer.problem
    if problem is None:
        return ""
    board, _ = problem.position()
    looks = {True: ("+", GREEN), False: ("-", RED), None: ("?", GREY)}
    labels = {each.turn: looks[each.wins] for each in answer.turns if each.turn != PASS}
    return diagram(board, problem.targets) + (diagram(board, problem.targets, labels) if labels else "")


def card(name: str, lines: Iterable[str], drawn: str = "", is_fault: bool = False) -> str:
    """A part of the page: a heading, pictures, sentences."""
    text = "".join(f"<p>{escape(line)}</p>" for line in lines)
    return f"<section{' class=fault' if is_fault else ''}><h2>{escape(name)}</h2>{drawn}{text}</section>"


def answer_card(name: str, answer: Answer) -> str:
    return card(name, said(answer), pictures(answer), not answer.verdict.is_settled)


def page(title: str, parts: List[str]) -> str:
    """The page."""
    head = f"<!doctype html><html lang=en><meta charset=utf-8><meta name=viewport content='width=device-width'><title>{escape(title)}</title><style>{STYLE}</style>"
    return f"{head}<h1>{escape(title)}</h1>{''.join(parts)}</html>\n"
