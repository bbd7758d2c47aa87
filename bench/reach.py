#!/usr/bin/env python3
"""Measures how far df-pn reaches: solves each problem of a folder, and prints a table by open points.

    bench/reach.py PROGRAM FOLDER [--positions N] [--seconds S] [--svg FILE]

PROGRAM is a built tsumego (crates/tsumego/out/tsumego). FOLDER holds problems, one to a file NAME.sgf, set up without moves. Each runs
with `solve --dfpn N --budget 1 --cert --parts` until it took S processor seconds (user and system). Open points are the marked
ones without a stone. A problem that stays open for want of positions has visited N, which gives the positions a second. Bytes are
those of the written answers, median and most. With --svg, FILE becomes a picture of time by open points.
"""
import argparse
import math
import os
import re
import resource
import statistics
import sys
import tempfile
from typing import List, NamedTuple, Optional, Set

# Sizes of regions, by the least number of open points: the classes of the table.
SIZES = [0, 9, 13, 17, 21, 26, 31]

LEAST_SECONDS = 0.001


class Run(NamedTuple):
    """What became of a problem: its open points, whether it was settled, its time, and the bytes of the answer. `visited_all` says
    whether df-pn visited all positions that it may."""

    name: str
    open_points: int
    is_settled: bool
    visited_all: bool
    seconds: float
    bytes: int


def points_of(text: str, names: str) -> Set[str]:
    """The points of all values of these properties; `aa:cc` is a rectangle."""
    points: Set[str] = set()
    for values in re.findall(rf"(?<![A-Z])(?:{names})((?:\s*\[[a-z:]*\])+)", text):
        for value in re.findall(r"\[([a-z:]+)\]", values):
            first, last = value[:2], value[-2:]
            columns = range(ord(first[0]), ord(last[0]) + 1)
            points |= {chr(c) + chr(r) for c in columns for r in range(ord(first[1]), ord(last[1]) + 1)}
    return points


def open_points(text: str) -> int:
    """How many marked points have no stone."""
    return len(points_of(text, "SQ") - points_of(text, "AB|AW"))


def start(program: str, words: List[str], path: str, out: int, seconds: float) -> int:
    """Starts the program on a file, for at most so many processor seconds; the number of the process."""
    child = os.fork()
    if child == 0:
        os.dup2(os.open(path, os.O_RDONLY), 0)
        os.dup2(out, 1)
        os.dup2(os.open(os.devnull, os.O_WRONLY), 2)
        limit = math.ceil(seconds)
        resource.setrlimit(resource.RLIMIT_CPU, (limit, limit + 1))
        os.execv(program, [program] + words)
    return child


def run(program: str, path: str, positions: int, seconds: float) -> Run:
    """One run of the program on a file."""
    words = ["solve", "--dfpn", str(positions), "--budget", "1", "--cert", "--parts"]
    with tempfile.TemporaryFile() as out:
        _, _, used = os.wait4(start(program, words, path, out.fileno(), seconds), 0)
        out.seek(0)
        answer = out.read()
    took = used.ru_utime + used.ru_stime
    with open(path, encoding="latin-1") as file:
        count = open_points(file.read())
    is_settled = answer[:8] in (b"1 killed", b"1 lives\n", b"1 lives ") and took <= seconds
    return Run(os.path.basename(path), count, is_settled, answer.startswith(b"1 unsettled"), took, len(answer))


def size_of(open_point_count: int) -> int:
    """The index of the class of a region."""
    return max(k for k, least in enumerate(SIZES) if least <= open_point_count)


def row(name: str, runs: List[Run], positions: int) -> str:
    """A row of the table."""
    settled = [r for r in runs if r.is_settled]
    spent = sum(r.seconds for r in runs if r.visited_all)
    speed = f"{positions * sum(r.visited_all for r in runs) / spent:,.0f}" if spent else "-"
    lengths = [r.bytes for r in settled]
    sizes = f"{statistics.median(lengths):,.0f} | {max(lengths):,}" if lengths else "- | -"
    within = sum(r.seconds <= 1 for r in settled)
    total = sum(r.seconds for r in runs)
    return f"| {name} | {len(runs)} | {len(settled)} | {within} | {total:.1f} | {speed} | {sizes} |"


def dot(r: Run, most: int, limit: float) -> str:
    """The dot of a problem: full where it was settled."""
    share = math.log(max(r.seconds, LEAST_SECONDS) / LEAST_SECONDS) / math.log(limit / LEAST_SECONDS)
    x, y = 50 + 530 * r.open_points / max(most, 1), 370 - 340 * min(share, 1.0)
    fill = "black" if r.is_settled else "none"
    return f'<circle cx="{x:.0f}" cy="{y:.0f}" r="3" fill="{fill}" stroke="black"><title>{r.name}</title></circle>'


def picture(runs: List[Run], limit: float) -> str:
    """An SVG of time by open points, the time as its logarithm."""
    most = max(r.open_points for r in runs)
    lines = ['<svg xmlns="http://www.w3.org/2000/svg" width="600" height="410" font-family="sans-serif" font-size="11">']
    lines.append('<rect width="600" height="410" fill="white"/>')
    seconds = LEAST_SECONDS
    while seconds <= limit:
        y = 370 - 340 * math.log(seconds / LEAST_SECONDS) / math.log(limit / LEAST_SECONDS)
        lines.append(f'<path d="M50 {y:.0f}H580" stroke="silver"/><text x="8" y="{y + 4:.0f}">{seconds:g} s</text>')
        seconds *= 10
    for count in range(0, most + 1, 5):
        lines.append(f'<text x="{46 + 530 * count / max(most, 1):.0f}" y="388">{count}</text>')
    lines += [dot(r, most, limit) for r in runs]
    lines.append('<text x="180" y="404">open points; a full dot is settled, a hollow one is not</text></svg>')
    return "\n".join(lines) + "\n"


def main(words: Optional[List[str]] = None) -> int:
    """Runs the folder's problems."""
    parser = argparse.ArgumentParser(usage=__doc__)
    parser.add_argument("program")
    parser.add_argument("folder")
    parser.add_argument("--positions", type=int, default=2_000_000)
    parser.add_argument("--seconds", type=float, default=5)
    parser.add_argument("--svg", default="")
    args = parser.parse_args(words)
    names = sorted(name for name in os.listdir(args.folder) if name.endswith(".sgf"))
    if not names:
        print(f"reach.py: {args.folder} has no problems", file=sys.stderr)
        return 2
    runs = [run(args.program, os.path.join(args.folder, name), args.positions, args.seconds) for name in names]
    print("| Open points | Problems | Settled | Within a second | Seconds | Positions a second | Bytes, median | Bytes, most |")
    print("|---|---|---|---|---|---|---|---|")
    for k, least in enumerate(SIZES):
        chosen = [r for r in runs if size_of(r.open_points) == k]
        if chosen:
            last = f"to {SIZES[k + 1] - 1}" if k + 1 < len(SIZES) else "and more"
            print(row(f"{least} {last}", chosen, args.positions))
    print(row("all", runs, args.positions))
    if args.svg:
        with open(args.svg, "w", encoding="utf-8") as file:
            file.write(picture(runs, args.seconds))
    return 0


if __name__ == "__main__":
    sys.exit(main())
