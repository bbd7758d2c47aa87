"""What requests are answered with, whatever way they come: the programs, the limits, and the places for programs that run."""
import io
import socket
import tempfile
from dataclasses import dataclass, replace
from typing import IO, Callable, Dict, Optional

from .limits import Limits
from .paths import PATHS, Path, Programs, as_json, events_of, path_of, worker_environment
from .running import Failed, Places, run

__all__ = ["Service", "TEXTS"]

# A worker ends its programs in time, and then has so many seconds to say so.
GRACE = 3.0
TEXTS = {
    400: "no input", 404: "POST to " + ", ".join(PATHS) + ", or GET / or /health", 413: "too long", 500: "failed", 503: "busy", 504: "out of time",
}


@dataclass(frozen=True)
class Request:
    """A path of PATHS, what stands behind its ?, and whether the answer is to be JSON. `client` is watched: where it leaves, the program ends."""

    path: str
    query: Dict[str, str]
    is_json: bool
    client: Optional[socket.socket] = None


class Service:
    """What requests are answered with: the programs, the limits, and the places for programs that run."""

    def __init__(self, programs: Programs, limits: Limits, at_once: int) -> None:
        self.programs, self.limits, self.places = programs, limits, Places(at_once)

    def answer(self, request: Request, given: IO[bytes], told: Optional[Callable[[bytes], object]] = None) -> IO[bytes]:
        """The answer in a file. If a worker answers in JSON, `told` takes the parts, and the file is empty. Raises Failed where there is no answer."""
        try:
            path, is_worker = path_of(request.path, request.query)
            limits = self.limits.below(request.query)
            words = path.words(self.programs, limits, request.query)
        except ValueError as fault:
            raise Failed(400, str(fault)) from fault
        self.places.take(limits.seconds, request.client)
        written: IO[bytes] = tempfile.TemporaryFile()
        try:
            if is_worker:
                longer = replace(limits, seconds=limits.seconds + GRACE)
                run(words, given, told if told and request.is_json else written.write, longer, request.client, worker_environment(self.programs))
                said = b""
            else:
                said = run(words, given, written.write, limits, request.client)
        except BaseException:
            written.close()
            raise
        finally:
            self.places.give()
        return written if is_worker == request.is_json and not said else _in_form(path, written, is_worker, request.is_json, said)


def _in_form(path: Path, written: IO[bytes], is_worker: bool, is_json: bool, said: bytes) -> IO[bytes]:
    """A worker's lines as text, a program's text as JSON, or with what it said in front. A picture stands alone, where there is one."""
    written.seek(0)
    text = written.read()
    written.close()
    if is_worker:
        return io.BytesIO(path.text(events_of(text)).encode())
    if is_json:
        return io.BytesIO(as_json(path, text.decode("ascii", "replace"), said.decode("ascii", "replace")).encode())
    return io.BytesIO(text if text and path.type.startswith("image/") else said + text)
