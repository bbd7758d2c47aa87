"""The service over HTTP: requests in their order, each within its limits, and the files of the page."""
import errno
import gzip
import hashlib
import io
import json
import os
import shutil
import signal
import socket
import sys
import tempfile
import threading
import time
import urllib.parse
from http.server import BaseHTTPRequestHandler, ThreadingHTTPServer
from typing import IO, Any, Dict, Optional, Set, Tuple

from .paths import PATHS
from .running import CHUNK, Failed
from .service import TEXTS, Request, Service

__all__ = ["Server", "log"]

CONNECTIONS = 64
# What is shorter isn't zipped.
SHORT = 1_000
RETRY_AFTER = "5"
# So much of a body that is refused is taken.
MOST_DRAINED = 8_388_608
PAGE = os.path.join(os.path.dirname(os.path.abspath(__file__)), "page")
TYPES = {"html": "text/html; charset=utf-8", "css": "text/css; charset=utf-8", "js": "text/javascript; charset=utf-8", "svg": "image/svg+xml"}
# The page takes nothing from elsewhere, runs its own modules alone, and stands in no frame.
POLICY = "default-src 'none'; script-src 'self'; style-src 'self'; img-src 'self' blob:; connect-src 'self'; base-uri 'none'; form-action 'none'; frame-ancestors 'none'"


def log(line: str) -> None:
    # One write a line, so that lines of several threads don't mix.
    sys.stderr.write(line.rstrip() + "\n")
    sys.stderr.flush()


class Server(ThreadingHTTPServer):
    # So many connections may wait to be taken, so that none is lost where many come at a time.
    request_queue_size = 512
    daemon_threads = True

    def __init__(self, address: Tuple[str, int], service: Service) -> None:
        self.service, self.files = service, read_page()
        # The open connections; of those that are read, when no more is read; and those that wait for their next request.
        self.open: Set[Any] = set()
        self.reading: Dict[Any, float] = {}
        self.idle: Set[Any] = set()
        self.lock, self.is_ending = threading.Lock(), False
        super().__init__(address, Handler)
        # The kernel would hold megabytes of each connection.
        for kind in socket.SO_SNDBUF, socket.SO_RCVBUF:
            self.socket.setsockopt(socket.SOL_SOCKET, kind, CHUNK)

    def get_request(self) -> Tuple[socket.socket, Any]:
        if len(self.open) >= CONNECTIONS:
            self.end_reading(list(self.idle))
            time.sleep(0.01)
            raise OSError("it waits")
        request, address = super().get_request()
        self.open.add(request)
        return request, address

    def is_crowded(self) -> bool:
        return self.is_ending or len(self.open) > CONNECTIONS // 2

    def begin_reading(self, request: Any, is_idle: bool) -> None:
        with self.lock:
            self.reading[request] = time.monotonic() + self.service.limits.seconds if not self.is_ending else 0.0
            (self.idle.add if is_idle else self.idle.discard)(request)

    def has_read(self, request: Any) -> None:
        with self.lock:
            self.reading.pop(request, None)
            self.idle.discard(request)

    def end_reading(self, requests: Any) -> None:
        """Nothing more is read of connections that are read."""
        with self.lock:
            for request in requests:
                if request in self.reading:
                    try:
                        request.shutdown(socket.SHUT_RD)
                    except OSError:
                        pass

    def service_actions(self) -> None:
        now = time.monotonic()
        self.end_reading([request for request, end in list(self.reading.items()) if end < now])

    def close_request(self, request: Any) -> None:
        self.has_read(request)
        super().close_request(request)
        self.open.discard(request)

    def handle_error(self, *_: Any) -> None:
        fault = sys.exc_info()[0]
        log(f"- - gone 0.00 {fault.__name__ if fault else ''}")

    def serve(self) -> None:
        """Until a signal comes. Then what runs is waited for: a program ends within --seconds, and so does sending."""
        try:
            # (a script's `&` leaves SIGINT ignored)
            for number in signal.SIGTERM, signal.SIGINT:
                signal.signal(number, signal.default_int_handler)
            host, port = str(self.server_address[0]), self.server_address[1]
            log(f"listening on {host}:{port}")
            self.serve_forever()
        except KeyboardInterrupt:
            pass
        signal.signal(signal.SIGTERM, signal.SIG_DFL)
        signal.signal(signal.SIGINT, signal.SIG_DFL)
        self.server_close()
        log("ending")
        self.is_ending = True
        end = time.monotonic() + 3 * self.service.limits.seconds
        while self.open and time.monotonic() < end:
            self.end_reading(list(self.reading))
            time.sleep(0.02)

    def server_close(self) -> None:
        # (that of ThreadingHTTPServer would wait for threads)
        self.socket.close()


def read_page() -> Dict[str, Tuple[str, bytes, str]]:
    """The files of the page by their paths: each with its type, its bytes, and a name for just these bytes."""
    files = {}
    for name in sorted(os.listdir(PAGE)) if os.path.isdir(PAGE) else []:
        kind = name.rpartition(".")[2]
        if kind in TYPES:
            with open(os.path.join(PAGE, name), "rb") as data:
                content = data.read()
            files["/" if name == "index.html" else "/" + name] = (TYPES[kind], content, f'"{hashlib.sha256(content).hexdigest()[:16]}"')
    return files


class Handler(BaseHTTPRequestHandler):
    protocol_version, server_version, sys_version = "HTTP/1.1", "tsumego-serve", ""
    server: Server
    path, name, known, is_streaming = "", "-", "-", False
    begin = 0.0

    def handle_one_request(self) -> None:
        self.is_first = not self.begin
        self.begin = time.monotonic()
        self.path, self.name, self.known, self.is_streaming = "", "-", "-", False
        self.server.begin_reading(self.connection, not self.is_first)
        super().handle_one_request()

    def parse_request(self) -> bool:
        # (a line has come)
        self.begin = time.monotonic()
        self.server.begin_reading(self.connection, False)
        return super().parse_request()

    def receive(self, given: IO[bytes], most: int) -> None:
        """Takes the bytes of the request. Raises Failed where it is refused: then the connection ends with the answer."""
        length, *more_lengths = self.headers.get_all("Content-Length", [""])
        if not length.isascii() or not length.isdigit() or more_lengths or "Transfer-Encoding" in self.headers:
            raise Failed(400)
        if len(length) > len(str(most)) or int(length) > most:
            raise Failed(413)
        left, digest = int(length), hashlib.sha256()
        while left > 0:
            more = self.rfile.read1(min(left, CHUNK))  # type: ignore[attr-defined]
            if not more:
                raise Failed(400)
            if given.write(more) < len(more):
                raise OSError(errno.ENOSPC, "No space left on device")
            digest.update(more)
            left -= len(more)
        given.seek(0)
        self.name = digest.hexdigest()[:16]

    def drain(self) -> None:
        """Takes what the client still sends of a request that is refused: else it mightn't get the answer."""
        try:
            self.connection.shutdown(socket.SHUT_WR)
            for _ in range(MOST_DRAINED // CHUNK):
                if not self.connection.recv(CHUNK):
                    break
        except OSError:
            pass

    def wants_json(self) -> bool:
        return "json" in self.headers.get("Accept", "")

    def do_POST(self) -> None:
        path, _, words = self.path.partition("?")
        query = dict(urllib.parse.parse_qsl(words))
        service, has_body = self.server.service, False
        try:
            if path not in PATHS:
                raise Failed(404)
            self.known = path
            with tempfile.TemporaryFile(buffering=0) as given:
                self.receive(given, service.limits.bytes)
                has_body = True
                self.server.has_read(self.connection)
                told = self.send_part if self.request_version == "HTTP/1.1" else None
                with service.answer(Request(path, query, self.wants_json(), self.connection), given, told) as written:
                    self.end(200, "", written)
        except Failed as fault:
            self.close_connection = self.close_connection or not has_body
            self.end(fault.status, fault.said)
            if not has_body:
                self.drain()
        except OSError as fault:
            self.close_connection = True
            self.end(500, fault.strerror or type(fault).__name__)

    def do_GET(self) -> None:
        path = self.path.partition("?")[0]
        self.close_connection = self.close_connection or "Content-Length" in self.headers or "Transfer-Encoding" in self.headers
        if path == "/health":
            self.send(200, io.BytesIO(b"ok\n"), {"Content-Type": TYPES["html"].replace("html", "plain")})
        elif path in self.server.files:
            kind, content, tag = self.server.files[path]
            head = {"Content-Type": kind, "ETag": tag, "Cache-Control": "no-cache", "Content-Security-Policy": POLICY, "Referrer-Policy": "no-referrer"}
            is_same = self.headers.get("If-None-Match") == tag
            self.send(304 if is_same else 200, io.BytesIO(b"" if is_same else content), head)
        else:
            self.end(404)

    # ---- answers

    def begin_answer(self, status: int, head: Dict[str, str]) -> None:
        self.close_connection = self.close_connection or self.request_version == "HTTP/1.0" or self.server.is_crowded()
        self.send_response(status)
        for name, value in head.items():
            self.send_header(name, value)
        self.send_header("X-Content-Type-Options", "nosniff")
        if self.close_connection:
            self.send_header("Connection", "close")
        self.end_headers()

    def send(self, status: int, body: IO[bytes], head: Dict[str, str]) -> None:
        """Sends an answer whole. Raises OSError where the client is gone, or doesn't take it in time."""
        length = body.seek(0, io.SEEK_END)
        if length > SHORT and "gzip" in self.headers.get("Accept-Encoding", ""):
            body, head = _zipped(body), {**head, "Content-Encoding": "gzip"}
            length = body.seek(0, io.SEEK_END)
        self.begin_answer(status, {**head, "Content-Length": str(length), "Vary": "Accept, Accept-Encoding"})
        body.seek(0)
        end = time.monotonic() + self.server.service.limits.seconds
        for chunk in iter(lambda: body.read(CHUNK), b""):
            self.send_within(chunk, end)

    def send_within(self, chunk: bytes, end: float) -> None:
        self.connection.settimeout(max(0.001, end - time.monotonic()))
        try:
            self.connection.sendall(chunk)
        finally:
            self.connection.settimeout(None)

    def send_part(self, chunk: bytes) -> None:
        """Sends a part of an answer that isn't whole yet. Raises Failed where the client is gone."""
        try:
            if not self.is_streaming:
                self.is_streaming = True
                self.begin_answer(200, {"Content-Type": "application/x-ndjson", "Transfer-Encoding": "chunked", "Cache-Control": "no-store"})
            self.send_within(b"%x\r\n%s\r\n" % (len(chunk), chunk), time.monotonic() + self.server.service.limits.seconds)
        except OSError as fault:
            raise Failed("gone") from fault

    def end(self, status: Any, said: str = "", text: Optional[IO[bytes]] = None) -> None:
        """Sends the last of an answer, and writes its line."""
        try:
            if self.is_streaming and status != "gone":
                if status != 200:
                    self.send_part((json.dumps({"event": "failed", "status": status, "why": self.words(status, said)}) + "\n").encode())
                self.send_within(b"0\r\n\r\n", time.monotonic() + self.server.service.limits.seconds)
            elif status != "gone":
                self.send(status, text or self.refusal(status, said), self.head_of(status))
        except (OSError, Failed):
            status, said = "gone", ""
        if status == "gone":
            self.close_connection = True
        log(f"{self.name} {self.known} {status} {time.monotonic() - self.begin:.2f} {said if status == 500 else ''}")

    def words(self, status: int, said: str) -> str:
        return said if said and status == 400 else TEXTS.get(status, "refused")

    def refusal(self, status: int, said: str) -> IO[bytes]:
        words = self.words(status, said)
        return io.BytesIO((json.dumps({"status": status, "error": words}) if self.wants_json_of_any() else words).encode("ascii", "replace") + b"\n")

    def wants_json_of_any(self) -> bool:
        # (a head that can't be read leaves none)
        return hasattr(self, "headers") and self.headers is not None and self.wants_json()

    def head_of(self, status: int) -> Dict[str, str]:
        kind = "application/json" if self.wants_json_of_any() else PATHS[self.known].type if status == 200 else "text/plain; charset=us-ascii"
        return {"Content-Type": kind, **({"Retry-After": RETRY_AFTER} if status == 503 else {})}

    def send_error(self, code: int, *_: Any) -> None:
        self.close_connection = True
        place = self.path.partition("?")[0]
        self.known = place if place in PATHS else "-"
        self.end(int(code))

    def log_message(self, *_: Any) -> None:
        pass


def _zipped(body: IO[bytes]) -> IO[bytes]:
    """The same in gzip's form, in a file of its own."""
    body.seek(0)
    made: IO[bytes] = tempfile.TemporaryFile()
    with gzip.GzipFile(fileobj=made, mode="wb", compresslevel=6, mtime=0) as zipped:
        shutil.copyfileobj(body, zipped, CHUNK)
    return made
