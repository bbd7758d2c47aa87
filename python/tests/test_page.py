"""The page in a real browser: a book problem to its answer, why a move fails, the solution saved; a random player; hostile texts."""
import json
import random
import re
import time
from pathlib import Path
from typing import Any, Iterator, List

import pytest
from browser import Page, open_browser
from data import OPEN, SHAPES, SUITE
from served import TOP, Served, served

from tsumego.problems import problem_of
from tsumego.sgf import main_line, trees_of
from tsumego.solving import Clock, certificate
from tsumego.programs import run

CERTIFIED = [text for name in ("valid", "invalid", "parts") for text in [(TOP / f"examples/certificate_{name}.txt").read_text()]]


@pytest.fixture(scope="module")
def files(tmp_path_factory: pytest.TempPathFactory) -> Path:
    return tmp_path_factory.mktemp("saved")


@pytest.fixture(scope="module")
def browser(files: Path) -> Iterator[Any]:
    found = open_browser(files)
    yield found
    found.quit()


@pytest.fixture(scope="module")
def service() -> Iterator[Served]:
    with served("--at-once", "2", "--seconds", "120") as found:
        yield found


@pytest.fixture
def page(browser: Any, service: Served) -> Iterator[Page]:
    found = Page(browser, f"http://127.0.0.1:{service.port}/")
    yield found
    assert found.faults() == []


def book(page: Page) -> None:
    """The corner of a book, stone by stone, as it is printed."""
    page.put("B", "eb ec bd cd dd")
    page.put("W", "ca db bc cc dc")


def saved(files: Path, name: str) -> str:
    end = time.monotonic() + 240
    while not (files / name).exists() and time.monotonic() < end:
        time.sleep(0.05)
    return (files / name).read_bytes().decode("utf-8", "replace")


def test_a_book_problem_to_its_answer(page: Page, files: Path) -> None:
    book(page)
    page.press("ask")
    assert page.text("say") == "Black begins and can kill White's group at D18, by A18, B18 or A17."
    assert page.chips("wins") == ["A18", "B18", "A17"] and "B19 → B18" in page.chips("fails")
    assert "The wall around White's group at D18 is open. Here it is closed at F19 and A15." in page.text("words")
    assert not page.part("unknowns").is_displayed() and page.text("error") == ""
    # Why a move fails: it is refuted from the certificate. A right one is resisted.
    page.point("ba")
    assert page.text("say") == "B19 fails. White answers B18."
    page.press("undo")
    assert page.text("say") == "Black to play." and page.chips("wins")
    page.point("bb")
    assert re.fullmatch(r"B18 is right\. White tries [A-E]1[5-9]\.", page.text("say"))
    page.press("first")
    page.press("solution")
    assert page.text("say").endswith("At the end: White's group is captured.")
    page.press("last")
    assert page.text("say") == "White's group is captured."
    page.press("check")
    page.wait(lambda: "checker:" in page.text("checked"))
    assert re.search(r"move by move in .* s: valid\. By the server's proved checker: valid\.", page.text("checked"))
    page.press("proof")
    proof = saved(files, "problem-proof.txt")
    assert run("tsumego", ["check", "--parts"], proof.encode()).text == "valid\n"
    page.press("first")
    page.press("save")
    tree = trees_of(saved(files, "problem.sgf"))[0]
    assert sum(each.nodes[0].has("TE") for each in tree.variations) == 3
    assert "A18, B18 or A17" in main_line(tree)[0].first("C") and "Here it is closed at F19 and A15" in main_line(tree)[0].first("C")
    # What an answer rests on isn't taken back by mistake.
    assert not page.part("undo").is_enabled()
    page.press("picture")
    assert saved(files, "problem.png").startswith("\ufffdPNG")


def test_closings_are_proposed_and_chosen(page: Page) -> None:
    book(page)
    page.put("G", "db")
    assert page.text("say").startswith("The group has triangles, and 10 points may be played. Its wall was open: it is closed at F19 and A15.")
    assert ("B", "fa") in page.stones() and len(page.part("closing").find_elements("tag name", "option")) == 9
    page.part("closing").find_elements("tag name", "option")[1].click()
    assert ("B", "fa") not in page.stones() and ("B", "ea") in page.stones()
    page.press("ask")
    assert "kill White's group" in page.text("say")
    # The other side first: then White lives.
    page.press("other")
    assert page.text("say").startswith("White begins and can save the group")


def test_words_of_life_ko_and_the_unsettled(page: Page) -> None:
    page.paste("(;SZ[13]PL[B]AB[ac][bc][cc][dc][ec][fc][fb][fa]AW[ab][bb][cb][db][eb][ea])")
    page.press("ask")
    assert page.text("say").endswith("It lives as it stands: it needs no move.")
    page.paste((TOP / "examples/ko_black_takes.sgf").read_text())
    page.press("ask")
    assert "But a ko decides" in page.text("words")
    page.paste(OPEN)
    page.browser.execute_script("const old = window.fetch; window.fetch = (path, rest) => old(path + '?dfpn=1000&seconds=60', rest)")
    page.press("ask")
    assert page.text("say") == "Not settled." and "weren't enough" in page.text("words") and "fewer squares" in page.text("words")
    page.browser.refresh()


def test_an_sgf_of_several_problems_and_a_link(page: Page) -> None:
    text = "".join(f"(;SZ[9]GN[{name}]{problem[7:]}" for name, problem in (("one", "(;SZ[9]AB[aa]AW[cc]PL[W])"), ("two", "(;SZ[9]AB[bb]AW[dd]PL[B])")))
    page.paste(text)
    options = page.part("which").find_elements("tag name", "option")
    assert [each.text for each in options] == ["1 of 2: one", "2 of 2: two"] and page.stones() == [("B", "aa"), ("W", "cc")]
    assert page.part("mover").get_attribute("value") == "W"
    options[1].click()
    assert page.stones() == [("B", "bb"), ("W", "dd")] and page.text("name") == "two"
    said = page.text("say")
    page.press("link")
    assert page.text("note") in ("The link is copied.", "Copy the link below.") and page.text("say") == said
    address = page.part("address").get_attribute("value")
    other = Page(page.browser, address)
    assert other.stones() == [("B", "bb"), ("W", "dd")] and other.text("name") == "two"
    other.put("E", "bb")
    assert other.stones() == [("W", "dd")]
    other.press("undo")
    assert other.stones() == [("B", "bb"), ("W", "dd")]


def test_on_a_phone_the_board_comes_into_view(page: Page) -> None:
    size = page.browser.get_window_size()
    page.browser.set_window_size(500, 800)
    page.paste("(;SZ[9]AB[aa]AW[cc])(;SZ[9]AB[bb]AW[dd])")
    page.browser.execute_script("document.getElementById('which').scrollIntoView({ block: 'start' })")
    is_seen = "const { top, bottom } = document.getElementById('board').getBoundingClientRect(); return top >= 0 && bottom <= innerHeight"
    assert not page.browser.execute_script(is_seen)
    page.part("which").find_elements("tag name", "option")[1].click()
    assert page.stones() == [("B", "bb"), ("W", "dd")] and page.browser.execute_script(is_seen)
    page.browser.set_window_size(size["width"], size["height"])


def test_by_the_keyboard(page: Page) -> None:
    from selenium.webdriver.common.keys import Keys

    board = page.part("board")
    board.send_keys(Keys.ARROW_UP, Keys.ENTER, Keys.ARROW_LEFT, Keys.ARROW_UP, Keys.SPACE)
    assert page.stones() == [("B", "ii"), ("B", "jj")]
    board.send_keys(Keys.ARROW_RIGHT)
    assert page.part("spoken").get_attribute("textContent") == "K11, empty"
    unnamed = "return [...document.querySelectorAll('button, select, input, textarea, svg[tabindex]')].filter((each) => !(each.textContent.trim() || each.ariaLabel || each.labels?.length)).length"
    assert page.browser.execute_script(unnamed) == 0


def test_faults_are_words_and_nothing_is_lost(browser: Any) -> None:
    with served("--at-once", "1", "--seconds", "120") as service:
        page = Page(browser, f"http://127.0.0.1:{service.port}/")
        page.press("ask")
        assert page.text("error") == "The board is empty: set up the stones first, or open an SGF."
        page.paste("(;AB[aa]")
        assert "can't be read" in page.text("error")
        page.put("W", "jj")
        page.put("G", "jj")
        assert "no Black stone is on the board" in page.text("error") or "not enclosed" in page.text("error")
        book(page)
        before = page.stones()
        service.process.kill()
        service.process.wait()
        page.press("ask")
        assert page.text("error").startswith("The service can't be reached. Nothing is lost") and page.stones() == before


def test_hostile_texts_stay_texts(page: Page, service: Served) -> None:
    markup = "<img src=x onerror=document.title='taken'><script>document.title='taken'</script>"
    for text in (f"(;GN[{markup}]C[{markup}]SZ[9]AB[aa]AW[ab]TR[aa])(;GN[{markup}]SZ[9]AB[bb])", f"(;SZ[9]AB[{markup}])", f"(;SZ[9]AB[aa]PL[{markup}])", markup):
        page.paste(text)
        page.press("ask")
        page.browser.get(f"http://127.0.0.1:{service.port}/#{text}")
        assert page.browser.execute_script("return document.querySelectorAll('img, body script, [onerror]').length") == 0
        assert page.browser.title != "taken"
    page.paste(f"(;GN[{markup}]SZ[9]AB[aa])")
    assert page.text("name") == markup
    head = service.get("/")[1]
    assert head["Content-Security-Policy"].startswith("default-src 'none'; script-src 'self'; style-src 'self'") and "unsafe" not in head["Content-Security-Policy"]
    pages = [service.get(f"/{name}")[2].decode() for name in ("", "style.css", "page.js", "view.js", "rules.js", "sgf.js", "certificate.js", "service.js", "proved.html")]
    assert not any(re.search(r"https?://(?!www\.w3\.org/2000/svg)|innerHTML|\beval\b|style=", each) for each in pages)
    page.browser.get_log("browser")


def test_a_phone(page: Page) -> None:
    page.browser.execute_cdp_cmd("Emulation.setDeviceMetricsOverride", {"width": 375, "height": 812, "deviceScaleFactor": 2, "mobile": True})
    try:
        page.paste(SHAPES[0][3])
        page.press("ask")
        assert page.browser.execute_script("return document.documentElement.scrollWidth") == 375
        assert page.part("board").size["width"] > 330
    finally:
        page.browser.execute_cdp_cmd("Emulation.clearDeviceMetricsOverride", {})


def losing() -> List[List[str]]:
    """Twenty problems in which the side to move loses, whatever it plays."""
    found = []
    for name, verdict, text in [[name, verdict, text[:-1] + marks + ")"] for name, verdict, marks, text in SHAPES] + SUITE:
        problem = problem_of(trees_of(text)[0])
        if (verdict == "lives") == (problem.to_move == problem.attacker):
            found.append([name, verdict, text, *problem.region])
    return sorted(found, key=len)[1::2][:20]


# Clicks the points (or buttons) one after the other, each when what was asked is answered, until the page says that it is over.
PLAYER = """const [turns, done] = arguments, said = [], part = (id) => document.getElementById(id);
    const step = () => {
        if (part('ask').textContent === 'Stop') return setTimeout(step, 2);
        said.push(part('say').textContent + part('error').textContent);
        if (!turns.length || /is captured|is alive|have passed/.test(said[said.length - 1])) return done(said);
        part(turns.shift()).dispatchEvent(new MouseEvent('click', { bubbles: true }));
        return step();
    };
    step();"""


def test_a_random_player_never_beats_the_page(page: Page) -> None:
    choose = random.Random(7)
    for name, verdict, text, *region in losing():
        page.paste(text)
        page.press("tool-P")
        turns = [choose.choice([f"p-{point}" for point in region] + ["pass"]) for _ in range(200)]
        said = page.browser.execute_async_script(PLAYER, turns)
        assert ("is captured" in said[-1]) == (verdict == "killed") and not any(" is right" in each for each in said), (name, said)


def test_the_checker_of_the_page_says_what_the_proved_one_says(page: Page) -> None:
    choose, given = random.Random(3), list(CERTIFIED)
    for _, _, marks, text in SHAPES[::9]:
        problem = problem_of(trees_of(text[:-1] + marks + ")")[0])
        line = certificate(problem, Clock(30))
        for _ in range(12 if line and len(line) < 30_000 else 0):
            at, end = choose.randrange(len(line)), choose.randrange(4)
            given.append(f"{problem.text()}\n{line[:at]}{choose.choice(['', '!', '?', '.', ';', '=', '*0', '*1', '--', 'aa', line[at : at + 3]])}{line[at + end :]}")
        given.append(f"{problem.text()}\n{line}")
    script = """return Promise.all([import('./sgf.js'), import('./rules.js'), import('./certificate.js')]).then(([sgf, rules, certificate]) => arguments[0].map((text) => {
        const end = text.lastIndexOf(')') + 1;
        return certificate.check(text.slice(end), new rules.Game(sgf.problemsOf(text.slice(0, end))[0]));
    }))"""
    found = page.browser.execute_script(script, given)
    expected = [run("tsumego", ["check", "--parts"], text.encode()).text.strip() for text in given]
    assert found == expected and {"valid", "invalid", "refused 30"} <= set(found), json.dumps(sorted(set(found)))
