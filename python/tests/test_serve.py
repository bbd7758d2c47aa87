"""The service: what it answers to each path, and how it treats many clients, clients that leave, and hostile ones."""
import gzip
import json
import socket
import subprocess
import threading
import time
from pathlib import Path
from typing import Iterator, List

import pytest
from data import CORNER, OPEN, SUITE
from served import COMMAND, TOP, Served, served

STRAIGHT = (TOP / "examples/straight_three_black.sgf").read_text()
ENDLESS = ["--at-once", "1", "--dfpn", "100000000", "--total", "300000000"]


@pytest.fixture(scope="module")
def service() -> Iterator[Served]:
    with served("--at-once", "2", "--seconds", "120") as found:
        yield found


def test_texts_are_those_of_the_programs(service: Served) -> None:
    for path, text in (
        ("/solve", "1 killed ca\n"),
        ("/turns", "1 killed ca\n  ba lives\n  ca killed\n  da lives\n  pass lives\n"),
        ("/score", "1 black 39 white 10 unfinished\n"),
        ("/ask", "Black begins and can kill White's group at C6, by C7.\nThese fail: B7 and D7 (White C7).\nIf White begins, White lives, by C7.\n"),
    ):
        status, head, body = service.post(path, STRAIGHT)
        assert (status, body.decode(), head["Content-Type"][:10]) == (200, text, "text/plain")
    certificate = service.post("/cert", STRAIGHT)[2].decode().splitlines()[1]
    assert service.post("/check", STRAIGHT + certificate)[2] == b"valid\n"
    assert service.post("/check", STRAIGHT + certificate.replace("!ca", "!ba", 1))[2] == b"invalid\n"
    assert b"T is White" in service.post("/show", STRAIGHT)[2] and service.post("/show", "(;)")[2].startswith(b"1 refused 20\nwhy: ")
    status, head, body = service.post("/svg", STRAIGHT)
    assert head["Content-Type"] == "image/svg+xml" and body.startswith(b"<svg ")
    assert b";B[ca]" in service.post("/sgf?depth=3", STRAIGHT + certificate)[2]
    assert service.post("/mark?point=D18", CORNER)[2].startswith(b"1 refused 20\nwhy: the White chain of D18=db is not enclosed")
    assert b"[dd][fa][ae]TR[" in service.post("/mark?point=D18&close=1", CORNER)[2]
    assert b"TE[1]" in service.post("/solution?point=D18", CORNER)[2]


def test_a_port_that_is_taken(service: Served) -> None:
    ended = subprocess.run([*COMMAND, "--port", str(service.port)], stderr=subprocess.PIPE, text=True, check=False)
    assert (ended.returncode, ended.stderr) == (2, f"tsumego-serve: port {service.port} is taken, perhaps by another tsumego-serve; --port 0 takes a free one\n")


def test_json(service: Served) -> None:
    assert service.data("/solve", STRAIGHT + "(;)") == {"problems": [{"problem": 1, "verdict": "killed", "turn": "ca"}, {"problem": 2, "verdict": "refused", "number": 20}]}
    turns = service.data("/turns", STRAIGHT)["problems"][0]["turns"]
    assert {each["turn"]: each["verdict"] for each in turns} == {"ba": "lives", "ca": "killed", "da": "lives", "pass": "lives"}
    assert service.data("/solve?dfpn=1&total=1", CORNER.replace("PL[B]", "PL[B]TR[db]"))["problems"][0]["cause"] == "total"
    certificate = service.data("/cert", STRAIGHT)["problems"][0]["certificate"]
    assert service.data("/check", STRAIGHT + certificate) == {"verdict": "valid"}
    assert service.data("/check", STRAIGHT) == {"verdict": "refused", "number": 30}
    for path in ("/ask", "/solution"):
        told = service.data(path, "(;SZ[9])")
        assert told["number"] == 20 and told.get("cause") is None
    assert service.data("/ask", STRAIGHT).get("cause") is None
    assert service.data("/score", STRAIGHT)["records"] == [{"record": 1, "black": 39, "white": 10, "finished": False}]
    ways = service.data("/mark?point=D18&close=1", CORNER)["ways"]
    assert len(ways) == 9 and ways[0]["stones"] == ["F19", "A15"] and ways[0]["points"] == 10
    assert service.data("/solve?seconds=x", STRAIGHT) == {"status": 400, "error": "seconds is no number above 0"}
    assert service.data("/ask?stone=D18", CORNER) == {"status": 400, "error": "/ask takes no stone"}
    assert service.data("/mark?point=D18&close=0", CORNER) == {"status": 400, "error": "close is 1, or isn't there"}
    assert service.data("/mark?point=I9", STRAIGHT)["status"] == 400
    refused = service.data("/mark?point=D18", CORNER)
    assert refused["text"] == CORNER.strip() + "\n" and refused["said"][0] == "1 refused 20"
    assert "said" not in service.data("/svg", STRAIGHT) and service.data("/svg", "(;)")["said"][0] == "1 refused 20"
    assert service.post("/svg", "(;SZ[3]AB[bb])")[2].startswith(b"<svg ") and service.post("/svg", "(;SZ[0])")[2].startswith(b"1 refused 11\n")
    assert service.data("/nosuch", STRAIGHT)["status"] == 404


def test_an_answer_comes_in_parts(service: Served) -> None:
    events = service.lines("/ask?point=D18", CORNER)
    assert [each["event"] for each in events] == ["problem", "verdict"] + ["turn"] * 8 + ["answer"]
    winning = {"A18", "B18", "A17"}
    first = events[1].pop("turn")
    assert first in winning
    assert events[1] == {"event": "verdict", "verdict": "killed", "detail": ""}
    assert {each["turn"] for each in events[2:-1] if each["wins"]} == winning - {first}
    assert set(events[-1]["winning"]) == winning and events[-1]["lines"][0].startswith("The wall around")
    assert service.lines("/ask", "(;SZ[9]AB[")[-1]["event"] == "refused"
    assert "no column I" in service.data("/ask?point=I9", STRAIGHT)["why"]
    # The first parts come before the last is known.
    with served(*ENDLESS, "--seconds", "3") as slow:
        last = {"event": "failed"}
        for _ in range(5):
            line = slow.connect()
            line.request("POST", "/ask", OPEN, {"Accept": "application/json"})
            answer = line.getresponse()
            if answer.status == 200:
                assert json.loads(answer.readline())["event"] == "problem"
                last = [json.loads(each) for each in answer.read().splitlines()][-1]
            if last["event"] != "failed":
                break
            # (the machine is so busy that the worker has begun too late)
        assert (last["event"], last["verdict"], last["cause"]) == ("answer", "unsettled", "time")


def test_limits_of_a_request_stay_below_the_options() -> None:
    with served("--seconds", "5", *ENDLESS[:2]) as service:
        begun = time.monotonic()
        assert service.post("/solve?seconds=1000&dfpn=100000000000&total=1000000000", OPEN)[0] in (200, 504)
        assert time.monotonic() - begun < 120


def test_requests_that_are_refused() -> None:
    with served("--seconds", "120", "--bytes", "100") as service:
        assert service.post("/solve", STRAIGHT)[0] == 413
        assert service.post("/solve?seconds=0", OPEN)[0] == 400 and service.post("/solve?memory=-1", OPEN)[0] == 400
        assert service.post("/mark?point=;rm", OPEN)[0] == 400 and service.post("/sgf?depth=0", OPEN)[0] == 400
        assert [line.split()[2] for line in service.logged()] == ["413", "400", "400", "400", "400"]


def test_all_that_come_at_once_are_answered(service: Served) -> None:
    problems = [text for _, _, text in SUITE[:10]] * 20
    expected = [service.post("/solve", text)[2] for text in problems[:10]] * 20
    found: List[object] = [None] * 200

    def ask(number: int) -> None:
        found[number] = service.post("/solve", problems[number])[::2]

    threads = [threading.Thread(target=ask, args=(number,)) for number in range(200)]
    for thread in threads:
        thread.start()
    for thread in threads:
        thread.join()
    assert found == [(200, body) for body in expected]
    status = Path(f"/proc/{service.process.pid}/status").read_text()
    assert int(status.partition("VmHWM:")[2].split()[0]) < 100_000


def test_a_place_that_does_not_come_free() -> None:
    with served(*ENDLESS, "--seconds", "12") as service:
        line = service.connect()
        line.request("POST", "/solve", OPEN)
        service.await_program()
        status, head, body = service.post("/solve?seconds=1", OPEN)
        assert (status, body, int(head["Retry-After"]) > 0) == (503, b"busy\n", True)
        assert line.getresponse().status == 504


@pytest.mark.parametrize("path", ["/solve", "/ask"])
def test_a_client_that_leaves_frees_its_place(path: str) -> None:
    with served(*ENDLESS, "--seconds", "120") as service:
        line = socket.create_connection(("127.0.0.1", service.port))
        line.sendall(f"POST {path} HTTP/1.1\r\nAccept: application/json\r\nContent-Length: {len(OPEN)}\r\n\r\n{OPEN}".encode())
        waiting = socket.create_connection(("127.0.0.1", service.port))
        waiting.sendall(f"POST /solve HTTP/1.1\r\nContent-Length: {len(OPEN)}\r\n\r\n{OPEN}".encode())
        service.await_program()
        time.sleep(2)
        waiting.close()
        line.close()
        begun = time.monotonic()
        assert service.post("/solve", STRAIGHT)[2] == b"1 killed ca\n"
        assert time.monotonic() - begun < 60
        assert sorted(each.split()[2] for each in service.logged()) == ["200", "gone", "gone"]


def test_a_connection_is_kept(service: Served) -> None:
    line = service.connect()
    for _ in range(3):
        line.request("POST", "/solve", STRAIGHT)
        answer = line.getresponse()
        assert (answer.status, answer.read(), answer.will_close) == (200, b"1 killed ca\n", False)
    line.request("POST", "/solve?seconds=x", STRAIGHT)
    answer = line.getresponse()
    assert (answer.status, answer.read()) == (400, b"seconds is no number above 0\n")
    line.request("POST", "/ask", STRAIGHT, {"Accept": "application/json"})
    assert line.getresponse().read().count(b"\n") == 5


def test_heads_that_nobody_should_send(service: Served) -> None:
    body = f"Content-Length: {len(STRAIGHT)}\r\n"
    for head, status in (
        (f"POST /solve HTTP/1.1\r\n{body}{body}", b"400"),
        (f"POST /solve HTTP/1.1\r\n{body}Transfer-Encoding: chunked\r\n", b"400"),
        ("POST /solve HTTP/1.1\r\nContent-Length: ²\r\n", b"400"),
        (f"POST http://[/solve HTTP/1.1\r\n{body}", b"404"),
        (f"POST /solve?{'a' * 70_000} HTTP/1.1\r\n{body}", b"414"),
        (f"POST /solve HTTP/1.0\r\nConnection: keep-alive\r\n{body}", b"200"),
    ):
        with socket.create_connection(("127.0.0.1", service.port), timeout=60) as line:
            line.sendall((head + "\r\n" + STRAIGHT).encode())
            answer = b"".join(iter(lambda: line.recv(4096), b""))
            assert answer[9:12] == status and b"\r\nConnection: close\r\n" in answer, (head, answer)


def test_gzip(service: Served) -> None:
    plain = service.post("/show", OPEN * 3)[2]
    status, head, body = service.post("/show", OPEN * 3, accept_encoding="gzip, br")
    assert status == 200 and head["Content-Encoding"] == "gzip" and len(plain) > 2 * len(body) and gzip.decompress(body) == plain
    head = service.get("/")[1]
    assert service.get("/", if_none_match=head["ETag"])[::2] == (304, b"")


def test_over_a_pipe() -> None:
    lines = [{"id": number, "path": "/solve", "text": STRAIGHT} for number in range(40)]
    lines[7] = {"id": 7, "path": "/solve", "text": "(;AB[" + STRAIGHT}
    lines[8] = {"id": 8, "path": "/nosuch"}
    lines[9] = {"id": 9, "path": "/ask", "text": CORNER, "query": {"point": "D18"}}
    text = "".join(json.dumps(line) + "\n" for line in lines) + "no JSON\n[]\n"
    ended = subprocess.run([*COMMAND, "--pipe", "--seconds", "120"], input=text, capture_output=True, text=True, timeout=600, check=False)
    answers = {each["id"]: each for each in map(json.loads, ended.stdout.splitlines())}
    solved = {"problems": [{"problem": 1, "verdict": "killed", "turn": "ca"}]}
    assert ended.returncode == 0 and len(ended.stdout.splitlines()) == 42
    assert [answers[number]["answer"] for number in range(40) if number not in (7, 8, 9)] == [solved] * 37
    assert answers[7]["answer"]["problems"][0]["verdict"] == "refused" and answers[8]["status"] == 404 and answers[None]["status"] == 400
    assert set(answers[9]["answer"]["winning"]) == {"A18", "B18", "A17"}
