"""A service of its own for tests, and clients of it."""
import contextlib
import http.client
import json
import subprocess
import sys
import time
from pathlib import Path
from typing import Any, Dict, Iterator, List, Optional, Tuple

TOP = Path(__file__).resolve().parents[2]
COMMAND = [sys.executable, str(TOP / "tsumego-serve")]


class Served:
    """A service that runs, and its port."""

    def __init__(self, process: "subprocess.Popen[str]") -> None:
        self.process = process
        assert process.stderr
        self.port = int(process.stderr.readline().rpartition(":")[2])

    def connect(self) -> http.client.HTTPConnection:
        return http.client.HTTPConnection("127.0.0.1", self.port, timeout=240)

    def get(self, path: str, **head: str) -> Tuple[int, Dict[str, str], bytes]:
        return self.ask("GET", path, None, head)

    def post(self, path: str, body: str, **head: str) -> Tuple[int, Dict[str, str], bytes]:
        return self.ask("POST", path, body.encode(), head)

    def ask(self, method: str, path: str, body: Optional[bytes], head: Dict[str, str]) -> Tuple[int, Dict[str, str], bytes]:
        """The status, the head and the body of an answer; `accept_encoding` is a head's Accept-Encoding."""
        line = self.connect()
        try:
            line.request(method, path, body, {name.replace("_", "-"): value for name, value in head.items()})
            answer = line.getresponse()
            return answer.status, dict(answer.getheaders()), answer.read()
        finally:
            line.close()

    def data(self, path: str, body: str) -> Any:
        """The last line of an answer in JSON."""
        return self.lines(path, body)[-1]

    def lines(self, path: str, body: str) -> List[Any]:
        return [json.loads(line) for line in self.post(path, body, accept="application/json")[2].splitlines()]

    def await_program(self) -> None:
        """Waits until a program runs."""
        end = time.monotonic() + 240
        while not self.has_program():
            assert time.monotonic() < end, "no program was begun"
            time.sleep(0.01)

    def has_program(self) -> bool:
        try:
            return any(path.read_text() for path in Path(f"/proc/{self.process.pid}/task").glob("*/children"))
        except FileNotFoundError:
            # (a thread has just ended)
            return False

    def logged(self) -> List[str]:
        """Ends the service; what it has logged of requests. The last of these may stand behind the line that says that it ends."""
        self.process.terminate()
        lines = self.process.communicate(timeout=240)[1].splitlines()
        lines.remove("ending")
        return lines


@contextlib.contextmanager
def served(*words: str) -> Iterator[Served]:
    process = subprocess.Popen([*COMMAND, "--port", "0", *words], stderr=subprocess.PIPE, text=True)
    try:
        yield Served(process)
    finally:
        process.kill()
        process.communicate()
