"""tsumego-gtp: the protocol, GNU Go's words held against the suite, and games against a random player."""
import io
import random
import re
import subprocess
import sys
from pathlib import Path
from typing import List, Tuple

import data
import pytest

from tsumego.gtp import ANALYZE, Engine, GtpError, serve
from tsumego.problems import problem_of
from tsumego.programs import ProgramError
from tsumego.sgf import trees_of

TOP = Path(__file__).resolve().parents[2]
# So that a busy machine settles them too.
SECONDS = 100


def session(*lines: str, seconds: float = SECONDS) -> List[str]:
    """The responses to some lines."""
    out = io.StringIO()
    assert serve(Engine(seconds), (line + "\n" for line in lines), out) == 0
    return out.getvalue().split("\n\n")[:-1]


def loaded(text: str, tmp_path: Path) -> Engine:
    (tmp_path / "a problem.sgf").write_text(text)
    engine = Engine(SECONDS)
    engine.respond("loadsgf", [*str(tmp_path / "a problem.sgf").split(" ")])
    return engine


def test_the_protocol() -> None:
    told = session("1 protocol_version", "name # a comment", "", "# nothing", "3 known_command genmove", "known_command frob", "7 frob", "quit", "name")
    assert told == ["=1 2", "= tsumego", "=3 true", "= false", "?7 unknown command", "="]
    assert set(session("list_commands")[0][2:].split("\n")) > {"boardsize", "komi", "loadsgf", "gogui-setup", "lz-analyze", "owl_attack", "tsumego-target", "undo"}


def test_as_a_process() -> None:
    ended = subprocess.run([sys.executable, "-B", str(TOP / "tsumego-gtp")], input="boardsize 9\nplay b E5\nquit\n", capture_output=True, text=True, check=False)
    assert (ended.returncode, ended.stdout, ended.stderr) == (0, "=\n\n=\n\n=\n\n", "")


@pytest.mark.parametrize("name, verdict, text", data.SUITE[::8], ids=[row[0] for row in data.SUITE[::8]])
def test_the_suite(name: str, verdict: str, text: str, tmp_path: Path) -> None:
    engine = loaded(text, tmp_path)
    problem = problem_of(trees_of(text)[0])
    status = engine.respond("dragon_status", [problem.point(problem.targets[0])])
    can_win = {"killed": ("dead", "critical"), "lives": ("alive", "critical")}[verdict]
    wins = (verdict == "lives") == (problem.to_move == problem.defender)
    assert status.split()[0] in (can_win if wins else can_win[:1])
    attack, defend = (engine.respond(f"owl_{word}", []) for word in ("attack", "defend"))
    assert re.fullmatch("0|1 ([A-T][0-9]+|PASS)", attack) and re.fullmatch("0|1 ([A-T][0-9]+|PASS)", defend)
    assert (verdict == "killed") == (attack != "0" if problem.to_move == problem.attacker else defend == "0")
    # The same side wins after the engine's turn.
    engine.respond("genmove", [problem.to_move])
    engine.respond("dragon_status", [])
    assert engine.verdict(engine.marks(), engine.problem.to_move).word == verdict


SMALL = [row for row in data.SHAPES if "three" in row[0] or "square_four" in row[0] or "bulky" in row[0]]


@pytest.mark.parametrize("name, verdict, marks, text", SMALL, ids=[row[0] for row in SMALL])
def test_a_random_player_never_wins(name: str, verdict: str, marks: str, text: str, tmp_path: Path) -> None:
    engine, chance = loaded(text.replace("PL[", f"{marks}PL[", 1), tmp_path), random.Random(name)
    targets, defender = engine.problem.targets, engine.problem.defender
    winner = defender if verdict == "lives" else engine.problem.attacker
    passes, colour = 0, engine.problem.to_move
    while passes < 2 and all(target in engine.problem.position()[0].stones for target in targets):
        if colour == winner:
            turn = engine.respond("genmove", [colour])
        else:
            turns = engine.problem.legal_turns()
            turn = engine.problem.point(chance.choice(turns[:-1] or turns))
            engine.respond("play", [colour, turn])
        passes = passes + 1 if turn.lower() == "pass" else 0
        colour = {"B": "W", "W": "B"}[colour]
    assert (passes == 2) == (verdict == "lives")


CORNER_CLOSED = "(;SZ[19]PL[B]AW[ca][db][bc][cc][dc]AB[fa][ae][eb][ec][bd][cd][dd])"


def test_first_moves_as_books_have_them(tmp_path: Path) -> None:
    engine = loaded(CORNER_CLOSED, tmp_path)
    assert engine.respond("dragon_status", ["D18"]).split()[::2] == ["critical", "B18"]
    drawn = engine.respond("tsumego-turns", []).split("\n")
    assert drawn == ["COLOR green A18 B18 A17", "COLOR red A19 B19 D19 E19 C18 A16", "TRIANGLE D18", "TEXT Black begins, Black kills"]
    said = engine.respond("lz-analyze", ["b", "50"])
    moves = re.findall(r"info move (\S+) visits \d+ winrate (\d+) prior \d+ lcb \d+ order (\d+) pv (\S+)(?: (?!info)(\S+))?", said)
    assert [(move, rate) for move, rate, *_ in moves if rate == "10000"] == [("A18", "10000"), ("B18", "10000"), ("A17", "10000")]
    assert {(move, answer) for move, rate, _, _, answer in moves if rate == "0"} >= {("A19", "B18"), ("C18", "A18")}
    assert [int(order) for _, _, order, *_ in moves] == list(range(9))
    assert re.findall(r"move (\S+) visits \d+ utility \S+ winrate (\d)", engine.respond("kata-analyze", ["b", "50", "allow", "b", "A18,C18", "1"])) == [("A18", "1"), ("C18", "0")]
    line = engine.respond("tsumego-line", ["w"]).split()
    assert line[0] == "B18" and len(line) > 1


def test_an_analysis_ends_with_the_next_line(tmp_path: Path) -> None:
    (tmp_path / "three.sgf").write_text(next(row[3] for row in data.SHAPES if row[0] == "centre_straight_three_B"))
    told = session(f"loadsgf {tmp_path}/three.sgf", "5 lz-analyze b 50", "", "name", "quit")
    assert told[1].startswith("=5\ninfo move F9 ") and told[2:] == ["= tsumego", "="]


def test_gogui(tmp_path: Path) -> None:
    assert session("gogui-analyze_commands")[0] == "= " + "\n".join(ANALYZE)
    black, white = "B E9 B E8 B E7 B E6 B A5 B B5 B C5 B D5", "W D9 W D8 W D7 W C6 W B6 W A6 W D6"
    told = session("boardsize 9", f"gogui-setup {black} {white}", "gogui-setup_player w", "tsumego-target D8", "tsumego-region", "dragon_status D8", "showboard")
    assert told[4] == "= A9 B9 C9 A8 B8 C8 A7 B7 C7" and told[5] == "= alive" and "White to move" in told[6] and " 8 . . . T X" in told[6]
    told = session("boardsize 9", f"gogui-play_sequence {black} {white}", "tsumego-target D8", "undo", "play w D6", "dragon_status", "undo")
    assert told[-2] == "= alive" and all(each.startswith("=") for each in told)


@pytest.mark.parametrize(
    "name, said", [("ko_black_takes", "a ko decides: with one ko threat White lives"), ("straight_three_black", "no ko decides")]
)
def test_whether_a_ko_decides(name: str, said: str, tmp_path: Path) -> None:
    assert loaded((TOP / f"examples/{name}.sgf").read_text(), tmp_path).respond("tsumego-ko", []) == said


def test_moves_are_history() -> None:
    text = (TOP / "examples/ko_white_took.sgf").read_text()
    problem = problem_of(trees_of(text)[0])
    engine = Engine(SECONDS)
    engine.respond("loadsgf", [str(TOP / "examples/ko_white_took.sgf")])
    # Black may not take back at once.
    with pytest.raises(GtpError, match="illegal move"):
        engine.respond("play", ["b", problem.point("ca")])
    assert engine.respond("owl_attack", []) == "0"
    engine.respond("gogui-setup_player", ["b"])
    engine.respond("tsumego-target", [problem.point(problem.targets[0])])
    engine.respond("tsumego-region", [problem.point(point) for point in problem.region])
    assert engine.respond("owl_attack", []) == f"1 {problem.point('ca')}"


def test_a_number_of_moves(tmp_path: Path) -> None:
    path = tmp_path / "moves.sgf"
    path.write_text("(;SZ[9]AB[aa];W[bb];B[cc](;W[dd];B[ee])(;W[ff]))")
    stones = {number: sum(told in " XO" for told in session(f"loadsgf {path} {number}", "showboard")[1] if told in "XO") - 1 for number in (1, 2, 3, 9)}
    assert stones == {1: 1, 2: 2, 3: 3, 9: 5}
    assert session(f"loadsgf {path} 2")[0] == "= black"
    assert session(f"loadsgf {path} 0", "showboard") == session(f"loadsgf {path}", "showboard")
    assert session(f"loadsgf {path} 3", "list_stones black", "list_stones w") == ["= white", "= A9 C7", "= B8"]


@pytest.mark.parametrize(
    "size, number, points",
    [
        (19, 2, "D4 Q16"),
        (19, 3, "D4 Q16 D16"),
        (19, 4, "D4 Q16 D16 Q4"),
        (19, 5, "D4 Q16 D16 Q4 K10"),
        (19, 6, "D4 Q16 D16 Q4 D10 Q10"),
        (19, 7, "D4 Q16 D16 Q4 D10 Q10 K10"),
        (19, 8, "D4 Q16 D16 Q4 D10 Q10 K4 K16"),
        (19, 9, "D4 Q16 D16 Q4 D10 Q10 K4 K16 K10"),
        (13, 5, "D4 K10 D10 K4 G7"),
        (9, 2, "C3 G7"),
        (9, 5, "C3 G7 C7 G3 E5"),
        (8, 4, "C3 F6 C6 F3"),
    ],
)
def test_handicap_stones(size: int, number: int, points: str) -> None:
    """As the protocol's specification fixes them (4.1.1)."""
    told = session(f"boardsize {size}", f"fixed_handicap {number}", "list_stones b", "loadsgf /nowhere.sgf")
    assert told[1] == f"= {points}" and set(told[2].split()) == set(told[1].split())


def test_what_was_played() -> None:
    """A stone in the corner is taken, then one side passes; a suicide takes no stone of the other side."""
    told = session("boardsize 5", "play b A1", "play w A2", "play b pass", "play w B1", "captures w", "captures b", "move_history", "undo", "captures w", "level 3")
    assert told[5:] == ["= 1", "= 0", "= white B1\nblack PASS\nwhite A2\nblack A1", "=", "= 0", "="]
    told = session("boardsize 5", "gogui-setup b A2 b B1 w A3 w B2 w C1", "play w A1", "captures w", "time_settings 60 10 1", "time_left b 5 0")
    assert told[3:] == ["= 2", "=", "="]


def test_top_moves() -> None:
    path = TOP / "examples/straight_three_black.sgf"
    assert session(f"loadsgf {path}", "top_moves_black", "top_moves_white") == ["= black", "= C7 1.00", "= C7 1.00"]


@pytest.mark.parametrize(
    "lines, fault",
    [
        (["boardsize 20"], "unacceptable size"),
        (["boardsize x"], "boardsize not an integer"),
        (["play b"], "invalid vertex"),
        (["play x A1"], "invalid color"),
        (["play b I5"], "invalid vertex"),
        (["play b A1", "play w A1"], "illegal move"),
        (["undo"], "cannot undo"),
        (["set_free_handicap A1 pass"], "invalid vertex"),
        (["loadsgf /nowhere.sgf"], "cannot open or parse the file"),
        (["gogui-setup b A1 w"], "syntax error"),
        (["gogui-setup b A19 w B19 w A18"], "a stone has no liberty"),
        (["owl_attack A1"], "vertex must not be empty"),
        (["genmove b"], "no stone is on the board"),
        (["play b A1", "fixed_handicap 2"], "board not empty"),
        (["fixed_handicap 10"], "invalid number of stones"),
        (["boardsize 8", "fixed_handicap 5"], "invalid number of stones"),
        (["boardsize 6", "fixed_handicap 2"], "invalid number of stones"),
        (["captures x"], "invalid color"),
        (["set_search_diamond A1"], "distance not an integer"),
    ],
)
def test_errors(lines: List[str], fault: str) -> None:
    told = session(*lines)[-1]
    assert told.startswith("? ") and fault in told and "\n" not in told


def test_an_open_wall_is_an_error(tmp_path: Path) -> None:
    with pytest.raises(GtpError, match="not enclosed: close one of F19 and A15, "):
        loaded(data.CORNER, tmp_path).respond("dragon_status", ["D18"])


@pytest.mark.parametrize("words", [("genmove", "b"), ("dragon_status",), ("lz-analyze", "b"), ("tsumego-turns",), ("tsumego-line", "w")])
def test_what_is_not_known_is_an_error(words: Tuple[str, ...], tmp_path: Path) -> None:
    engine = loaded(data.OPEN, tmp_path)
    engine.limit = 0.3
    with pytest.raises(GtpError, match="unsettled after 0"):
        engine.respond(words[0], list(words[1:]))
    assert len(engine.problem.nodes) == 1


def test_after_the_end(tmp_path: Path) -> None:
    engine = loaded("(;SZ[7]PL[B]AW[aa]AB[ba]TR[aa]SQ[ab])", tmp_path)
    assert engine.respond("genmove", ["b"]) == "A6"
    for words in (["dragon_status"], ["owl_attack"], ["tsumego-turns"], ["lz-analyze", "w"], ["tsumego-line", "b"], ["tsumego-region"]):
        with pytest.raises(GtpError, match="the group is taken"):
            engine.respond(words[0], words[1:])
    assert engine.respond("genmove", ["w"]) == "PASS" and "no stone" not in engine.respond("showboard", [])
    engine = loaded(next(row[3] for row in data.SHAPES if row[0] == "centre_bent_four_B"), tmp_path)
    for colour in ("b", "w"):
        engine.respond("play", [colour, "pass"])
    assert engine.respond("dragon_status", []) == "alive"


WORDS = ["b", "w", "A1", "B2", "C3", "C2", "B3", "pass", "D4", "A9", "5", "auto", "x", "allow", "1", str(TOP / "examples/straight_three_black.sgf")]


@pytest.mark.parametrize("seed", range(4))
def test_no_words_break_the_engine(seed: int) -> None:
    chance, engine = random.Random(seed), Engine(0.2)
    engine.respond("boardsize", ["5"])
    commands = [name for name in engine.commands() if name != "quit"] + ["play", "undo", "loadsgf"] * 3
    answered = 0
    for _ in range(80):
        words = [chance.choice("bw"), chance.choice(WORDS)] if chance.random() < 0.6 else chance.choices(WORDS, k=chance.randrange(4))
        try:
            engine.respond(chance.choice(commands), words)
            answered += 1
        except (GtpError, ProgramError):
            pass
    assert answered > 20
