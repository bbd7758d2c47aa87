"""tsumego-serve: answers problems over HTTP, with a page for people, or over a pipe for programs.

GET / is the page. POST the bytes of an SGF file to one of these; what `tsumego` and `tsumego-show` write is the answer:

    /solve  /turns  /cert   who wins; and each first turn; and the certificate, with shared parts
    /score  /check          a game's score; whether a certificate, behind its problem, is valid, also with shared parts
    /show   /svg            the board with hints, or why a tree is refused; a diagram
    /sgf?depth=N            the strategy that stands behind a problem as variations
    /mark?point=C18         marks around a stone; with &close=1 an open wall is closed too
    /ask?point=C18          the first problem answered in words, as by tsumego-ask; without point by its marks
    /solution?point=C18     the same as one game tree

With `Accept: application/json` the answer is JSON; that of /ask comes in lines, each first move as soon as it is known. Each request may
ask for less than the options allow: `?seconds=5&memory=100000000&total=1000&dfpn=10000`. The statuses are:

    200  the program ended with 0 or 1: so a problem may also be unsettled or refused
    400  no length, a length beside `chunked`, no HTTP, words behind ? that can't be, or the bytes don't come within --seconds
         or before the end of the service
    404  another path
    413  more than --bytes
    414, 431, 505  a head that the service doesn't read
    500  the program failed
    501  another method
    503  no place came free within --seconds, since --at-once programs run and others waited: Retry-After says when to ask again
    504  the program took more than --seconds; it has no lines, not even of the trees that were solved

GET /health answers 200 and `ok`, without a program. Neither it nor the page is logged.

Each other request writes a line on standard error: the first 16 digits of the SHA-256 of its body, its path, its status, its
seconds. `gone` stands for the status if the client has left or doesn't take its answer within --seconds, and `-` for no body or
another path. At 500 or a lost connection it ends with what failed. Silent connections write none.

A client that leaves, or closes its side of the connection, ends its program. Connections are kept for further requests, but for when
they are many: 64 are open at most, and further ones wait. One client can hold them all: for strangers put a proxy in front that bounds
the connections of each. The body and the answer of each lie in files in TMPDIR, 33 MB at most. SIGTERM and SIGINT end the service,
with 0, when the programs that run have ended and their answers are sent. A second signal ends it at once, and its programs with it.

With --pipe there is no port. Each line of standard input is a JSON object: `path`, `text` (the SGF), and if wanted `id`, `query` (an
object). Each line of standard output is one with the same `id`, a `status` and an `answer`, in the order in which answers come.

Without --address the service listens on this machine alone. The archive has a unit for systemd and a Containerfile.
"""
import argparse
import errno
import io
import shutil
import subprocess
import sys
from typing import List, Optional

from .command import Parser
from .limits import MOST_BYTES, Limits
from .paths import Programs
from .pipe import serve_pipe
from .programs import ProgramError, program
from .running import Failed, run
from .service import Service
from .web import Server, log

__all__ = ["main", "parser"]

OPTIONS = (
    ("program", "", "the built tsumego (that of the repository or the archive, or on the PATH)"),
    ("show", "", "the built tsumego-show (likewise)"),
    ("address", "127.0.0.1", "where to listen"),
    ("port", 8361, "0 takes a free one"),
    ("at-once", 4, "programs that run side by side"),
    ("seconds", Limits.seconds, "for a body to come, for a place, for the program, and for the answer to be taken"),
    ("memory", Limits.memory, "bytes of address space for each program"),
    ("bytes", Limits.bytes, f"of an input, up to {MOST_BYTES}"),
    ("total", Limits.total, "nodes for each problem, as solve has it"),
    ("dfpn", Limits.dfpn, "positions for each problem, as solve has it; 0: without"),
)


def parser() -> Parser:
    made = Parser("tsumego-serve", "tsumego-serve [--port N] [--at-once N] [--seconds N] .. or tsumego-serve --pipe", __doc__)
    made.add_argument("--pipe", action="store_true", help="JSON lines on standard input and output, no port")
    for name, default, says in OPTIONS:
        made.add_argument(f"--{name}", type=type(default), default=default, metavar="N" if not isinstance(default, str) else "WORD",
                          help=says + (f" ({default})" if default != "" else ""))
    return made


def service_of(args: argparse.Namespace) -> Service:
    """The service, when its program has answered a first question. Raises ValueError, OSError or Failed."""
    limits = Limits(args.seconds, args.memory, args.total, args.dfpn, args.bytes)
    if args.at_once < 1:
        raise ValueError("--at-once is less than 1")
    if min(limits.seconds, limits.memory, limits.bytes) <= 0 or limits.bytes > MOST_BYTES:
        raise ValueError(f"--seconds, --memory and --bytes are more than 0, and --bytes at most {MOST_BYTES}")
    named = Programs(*(shutil.which(word) or word for word in (args.program or program("tsumego"), args.show or program("tsumego-show"))))
    run([named.tsumego, *limits.solve()], subprocess.DEVNULL, io.BytesIO().write, limits)
    return Service(named, limits, args.at_once)


def main(words: Optional[List[str]] = None) -> int:
    """Runs the command; returns its status."""
    args = parser().parse_args(words)
    try:
        service = service_of(args)
        server = None if args.pipe else Server((args.address, args.port), service)
    except Failed as fault:
        log(f"tsumego-serve: {fault.said or 'the program is out of time'}")
        return 2
    except (OSError, OverflowError, ValueError, ProgramError) as fault:
        is_taken = isinstance(fault, OSError) and fault.errno == errno.EADDRINUSE
        log(f"tsumego-serve: {f'port {args.port} is taken, perhaps by another tsumego-serve; --port 0 takes a free one' if is_taken else fault}")
        return 2
    if server:
        server.serve()
        return 0
    return serve_pipe(service, args.at_once)


if __name__ == "__main__":
    sys.exit(main())
