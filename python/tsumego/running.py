"""Programs that run side by side for clients: so many at a time, each within its limits, and none for a client that has left."""
import collections
import os
import selectors
import signal
import socket
import subprocess
import threading
import time
from typing import IO, Any, Callable, Deque, Dict, List, Optional, Union

from .limits import Limits

__all__ = ["CHUNK", "Failed", "Places", "has_left", "run"]

CHUNK = 65_536
# A program may write so much, and so much of what it says on standard error is kept.
MOST_WRITTEN, MOST_SAID = 16_777_216, 4_096
# A client that waits for a place is looked at so often, in seconds.
LOOK = 0.1


class Failed(Exception):
    """A request without an answer: the status of HTTP that says so, or `gone` where the client has left, and more words for the log."""

    def __init__(self, status: Union[int, str], said: str = "") -> None:
        super().__init__(said)
        self.status, self.said = status, said


class Places:
    """So many programs run at a time. Who waits gets a place in the order of coming."""

    def __init__(self, count: int) -> None:
        self.left, self.lock = count, threading.Lock()
        self.waiting: Deque[threading.Event] = collections.deque()

    def take(self, seconds: float, client: Optional[socket.socket] = None) -> None:
        """Takes a place. Raises Failed where none is free within the seconds, or the client leaves."""
        end, turn = time.monotonic() + seconds, threading.Event()
        with self.lock:
            if self.left and not self.waiting:
                self.left -= 1
                return
            self.waiting.append(turn)
        is_gone = False
        while not turn.wait(LOOK) and time.monotonic() < end and not is_gone:
            is_gone = client is not None and has_left(client)
        with self.lock:
            if turn.is_set():
                return
            self.waiting.remove(turn)
        raise Failed("gone" if is_gone else 503)

    def give(self) -> None:
        """Gives a place back."""
        with self.lock:
            if self.waiting:
                self.waiting.popleft().set()
            else:
                self.left += 1


def has_left(client: socket.socket) -> bool:
    """Whether the client has closed its side of the connection."""
    try:
        return client.recv(1, socket.MSG_PEEK | socket.MSG_DONTWAIT) == b""
    except BlockingIOError:
        return False
    except OSError:
        return True


def run(words: List[str], given: Any, told: Callable[[bytes], object], limits: Limits, client: Optional[socket.socket] = None, more: Optional[Dict[str, str]] = None) -> bytes:
    """Runs a program within the limits: `given` is its input, `told` takes what it writes, bit by bit. Returns what it said on standard error.

    Raises Failed where it fails, has no more time, writes too much, or the client leaves. Then it has been ended, with all that it began. `more` is
    for its environment. It ends with this process too: by SIGTERM, where it is one that ends others.
    """
    ending = "TERM" if more else "KILL"
    command = ["setpriv", "--pdeathsig", ending, "prlimit", f"--as={limits.memory}", *words]
    process = subprocess.Popen(command, stdin=given, stdout=subprocess.PIPE, stderr=subprocess.PIPE, start_new_session=True, env={**os.environ, **(more or {})})
    try:
        said = _watch(process, told, time.monotonic() + limits.seconds, client)
    except BaseException:
        os.killpg(process.pid, signal.SIGKILL)
        raise
    finally:
        process.wait()
        for pipe in (process.stdout, process.stderr):
            assert pipe
            pipe.close()
    if process.returncode not in (0, 1):
        raise Failed(500, _first_line(said) or _how_it_ended(process.returncode))
    return said


def _watch(process: "subprocess.Popen[bytes]", told: Callable[[bytes], object], end: float, client: Optional[socket.socket]) -> bytes:
    """Passes on what the program writes until it has ended; returns what it said on standard error."""
    said, written, is_open = b"", 0, 2
    out, errors = process.stdout, process.stderr
    assert out and errors
    with selectors.DefaultSelector() as watched:
        sources: List[Union[IO[bytes], socket.socket]] = [out, errors]
        for source in sources + ([client] if client else []):
            watched.register(source, selectors.EVENT_READ)
        while is_open:
            left = end - time.monotonic()
            if left <= 0:
                raise Failed(504)
            for key, _ in watched.select(left):
                if key.fileobj is client:
                    if has_left(client):
                        raise Failed("gone")
                    # (its next request has come)
                    watched.unregister(client)
                    continue
                chunk = os.read(key.fd, CHUNK)
                if not chunk:
                    watched.unregister(key.fileobj)
                    is_open -= 1
                elif key.fileobj is errors:
                    said = (said + chunk)[:MOST_SAID]
                else:
                    written += len(chunk)
                    if written > MOST_WRITTEN:
                        raise Failed(500, "the answer is too long")
                    told(chunk)
    try:
        process.wait(max(0.01, end - time.monotonic()))
    except subprocess.TimeoutExpired:
        raise Failed(504) from None
    return said


def _first_line(said: bytes) -> str:
    return said.decode("ascii", "replace").partition("\n")[0]


def _how_it_ended(status: int) -> str:
    return f"status {status}" if status > 0 else f"signal {-status}: is --memory too small?"
