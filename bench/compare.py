#!/usr/bin/env python3
"""Runs two programs on the same inputs, turn by turn in one run, and prints ratios of time and peak memory.

    bench/compare.py PROGRAM OTHER [--runs N] [--only WORD]

PROGRAM is a built tsumego (crates/tsumego/out/tsumego), OTHER any program that takes the same words and input.
A row is an input of bench/inputs with words, as bench/rows.txt names them. Time is the least of N runs, in processor
seconds (user and system) and by the clock; memory is the peak of the resident set. Both answers must agree.
"""
import argparse
import os
import subprocess
import sys
import tempfile
import time

# GNU time: it starts the program from a small process, so that the peak is the program's own.
TIME = "/usr/bin/time"

HERE = os.path.dirname(os.path.abspath(__file__))


def run(program, words, data):
    """Processor seconds, seconds by the clock, peak MiB, output and status of one run."""
    with tempfile.TemporaryFile() as out, tempfile.NamedTemporaryFile("r") as peak:
        begin = time.monotonic()
        child = subprocess.Popen([TIME, "-f", "%M", "-o", peak.name, program] + words, stdin=subprocess.PIPE, stdout=out, stderr=subprocess.DEVNULL)
        child.stdin.write(data)
        child.stdin.close()
        _, status, used = os.wait4(child.pid, 0)
        elapsed = time.monotonic() - begin
        child.returncode = status
        out.seek(0)
        kilobytes = int(peak.read().split()[-1])
        return used.ru_utime + used.ru_stime, elapsed, kilobytes / 1024, out.read(), os.waitstatus_to_exitcode(status)


def least(program, words, data, runs):
    results = [run(program, words, data) for _ in range(runs)]
    return min(r[0] for r in results), min(r[1] for r in results), max(r[2] for r in results), results[0][3], results[0][4]


def rows(only):
    for line in open(os.path.join(HERE, "rows.txt")):
        line = line.strip()
        if line and not line.startswith("#") and (not only or only in line):
            name, words = line.split(":", 1)
            yield name.strip(), words.split()


def main():
    parser = argparse.ArgumentParser(usage=__doc__)
    parser.add_argument("program")
    parser.add_argument("other")
    parser.add_argument("--runs", type=int, default=3)
    parser.add_argument("--only", default="")
    args = parser.parse_args()
    chosen = list(rows(args.only))
    if not chosen:
        print(f"compare.py: no row of bench/rows.txt has {args.only}", file=sys.stderr)
        return 2
    differ = 0
    print("| Input | Words | Time, ratio | By the clock, ratio | Memory, ratio | Seconds by the clock | Answers |")
    print("|---|---|---|---|---|---|---|")
    for name, words in chosen:
        data = open(os.path.join(HERE, "inputs", name), "rb").read()
        ours = least(args.program, words, data, args.runs)
        other = least(args.other, words, data, args.runs)
        same = ours[3:] == other[3:]
        differ += not same
        processor = ours[0] / max(other[0], 0.001)
        clock = ours[1] / max(other[1], 0.001)
        memory = ours[2] / other[2]
        answers = "same" if same else "DIFFER"
        print(f"| {name} | {' '.join(words)} | {processor:.1f} | {clock:.1f} | {memory:.1f} | {ours[1]:.3f} | {answers} |", flush=True)
    return 1 if differ else 0


if __name__ == "__main__":
    sys.exit(main())
