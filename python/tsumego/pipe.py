"""The service over standard input and output, for programs that don't want a port: JSON lines."""
import json
import signal
import sys
import tempfile
import threading
from concurrent.futures import ThreadPoolExecutor
from typing import Any, Dict, Optional

from .paths import PATHS
from .running import Failed
from .sgf import write_bytes
from .service import TEXTS, Request, Service

__all__ = ["serve_pipe"]


class _Pipe:
    def __init__(self, service: Service) -> None:
        self.service, self.lock = service, threading.Lock()

    def write(self, line: Dict[str, Any]) -> None:
        # One line at a time: threads answer side by side.
        with self.lock:
            sys.stdout.write(json.dumps(line) + "\n")
            sys.stdout.flush()

    def answer(self, line: str) -> None:
        """Answers a line. Whatever is wrong with it is an answer too, and hurts no other line."""
        number: Any = None
        try:
            asked = json.loads(line)
            number = asked.get("id")
            name, text, query = asked.get("path"), asked.get("text", ""), asked.get("query", {})
            if not isinstance(name, str) or not isinstance(text, str) or not isinstance(query, dict):
                raise Failed(400, "path and text are strings, and query is an object")
            self.write({"id": number, "status": 200, "answer": self.asked(name, text, {str(key): str(value) for key, value in query.items()})})
        except Failed as fault:
            status = fault.status if isinstance(fault.status, int) else 500
            self.write({"id": number, "status": status, "error": fault.said or TEXTS.get(status, "failed")})
        except (ValueError, AttributeError, RecursionError):
            self.write({"id": number, "status": 400, "error": "the line is no JSON object"})
        except OSError as fault:
            self.write({"id": number, "status": 500, "error": fault.strerror})

    def asked(self, name: str, text: str, query: Dict[str, str]) -> Any:
        if name not in PATHS:
            raise Failed(404, "path is one of " + " ".join(PATHS))
        data = write_bytes(text)
        if len(data) > self.service.limits.bytes:
            raise Failed(413)
        with tempfile.TemporaryFile(buffering=0) as given:
            given.write(data)
            given.seek(0)
            with self.service.answer(Request(name, query, True), given) as written:
                written.seek(0)
                lines = [json.loads(each) for each in written.read().splitlines()]
        return lines[-1]


def serve_pipe(service: Service, at_once: int) -> int:
    """Until standard input ends, and all its lines are answered."""
    signal.signal(signal.SIGTERM, signal.default_int_handler)
    pipe = _Pipe(service)
    stopped: Optional[BaseException] = None
    with ThreadPoolExecutor(at_once) as pool:
        try:
            for line in iter(sys.stdin.readline, ""):
                pool.submit(pipe.answer, line)
        except KeyboardInterrupt as fault:
            stopped = fault
    return 130 if stopped else 0
