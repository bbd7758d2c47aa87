// What the page does: a problem is set up, asked about, and played against its proof.
import { Game, NAMES, other } from "./rules.js";
import { empty, problemsOf, readFile, write } from "./sgf.js";
import { check, depth, strategyOf } from "./certificate.js";
import { draw, pictureOf, windowOf } from "./view.js";
import { post } from "./service.js";

const EXAMPLES = [
  "(;GM[1]FF[4]SZ[19]GN[Five on the second line in the corner]PL[B]AW[ab][bb][cb][db][eb]AB[ac][bc][cc][dc][ec][fb])",
  "(;GM[1]FF[4]SZ[19]GN[Corner with a stone on the edge]PL[B]AW[ca][db][bc][cc][dc]AB[eb][ec][bd][cd][dd])",
  "(;GM[1]FF[4]SZ[13]GN[Is it alive?]PL[B]AB[ac][bc][cc][dc][ec][fc][fb][fa]AW[ab][bb][cb][db][eb][ea])",
];
const CAUSES = {
  time: "The seconds that this service gives weren't enough.", budget: "The positions that this service may look at weren't enough.",
  total: "The positions that this service may look at weren't enough.", memory: "The memory that this service may take wasn't enough.",
};
const START = "Set up the stones, then ask.";
const LONGEST = 80;

const $ = (id) => document.getElementById(id);
let problem = empty(19);
let problems = [];
// The moves that were tried, as points, and how many of them stand on the board. Of each number of moves: the strategy behind them with its side,
// and what was answered there, as far as known.
let [moves, at, strategies, answers] = [[], 0, [], []];
// Earlier states of the setup; the ways in which an open wall can be closed; the last certificate with its problem; what runs.
let [earlier, walls, proof, running] = [[], null, null, null];
let [tool, cursor] = ["B", null];

// ---- the position, and what is known of it

const game = (count = at) => new Game(problem, moves.slice(0, count));
const text = (count = at) => write(problem, movesInSgf(count));
const sideOf = (strategy, now) => (strategy.word === "killed" ? other(now.defender) : now.defender);

function movesInSgf(count) {
  const now = game(0);
  return moves.slice(0, count).map((turn, number) => [number % 2 ? other(now.toMove) : now.toMove, now.board.sgf(turn)]);
}

function signs(now) {
  const found = new Map();
  for (const each of (answers[at] || { turns: [] }).turns) if (each.turn !== "pass") found.set(now.board.named(each.turn), each.wins === null ? "unknown" : each.wins ? "win" : "fail");
  return found;
}

function show() {
  const now = game();
  const numbers = new Map();
  for (let number = 1, then = game(0); number <= at; number += 1) {
    then.make(moves[number - 1]);
    if (moves[number - 1] !== now.board.pass && now.stones[moves[number - 1]] !== ".") numbers.set(moves[number - 1], number);
  }
  const stones = [...now.stones].flatMap((each, point) => (each === "." ? [] : [point]));
  const region = problem.region.length ? now.region : new Set();
  const closed = new Set((problem.closed || []).map((point) => now.board.read(point)));
  const part = windowOf(now.board, $("whole").checked ? [] : [...stones, ...now.targets, ...region]);
  draw($("board"), { board: now.board, stones: now.stones, part, targets: new Set(now.targets), region, closed, signs: signs(now), numbers, cursor });
  for (const each of "BWEGSP") $(`tool-${each}`).setAttribute("aria-pressed", String(each === tool));
  $("mover").value = now.toMove;
  $("mover").disabled = at > 0;
  $("size").value = `${problem.columns}`;
  for (const id of ["name", "comment"]) Object.assign($(id), { textContent: problem[id], hidden: !problem[id] });
  const isEnd = at === moves.length;
  $("after").hidden = !problem.targets.length;
  $("save").textContent = hasSolution() ? "Save solution" : "Save SGF";
  const off = { first: !at, back: !at, forward: isEnd, last: isEnd, undo: !at && (!earlier.length || hasSolution()), pass: tool !== "P", check: !proof, proof: !proof, solution: !problem.targets.length };
  for (const [id, isOff] of Object.entries(off)) $(id).disabled = isOff;
  showAnswer(now);
  const held = `#${encodeURIComponent(write(problem))}`;
  if (held !== location.hash) history.replaceState(null, "", held);
}

// The answer at this position: words, and each first move as a button.
function showAnswer(now) {
  const answer = answers[at] || { turns: [], words: [] };
  $("words").replaceChildren(...answer.words.map((line) => Object.assign(document.createElement("p"), { textContent: line })));
  const rows = { wins: ["Wins:", true, "moves good"], fails: ["Fails:", false, "moves bad"], unknowns: ["Open:", null, "moves"] };
  for (const [id, [title, wins, look]] of Object.entries(rows)) {
    const turns = answer.turns.filter((each) => each.wins === wins);
    const head = Object.assign(document.createElement("b"), { textContent: title });
    $(id).className = look;
    $(id).hidden = !turns.length;
    $(id).replaceChildren(head, ...turns.map((each) => {
      const made = Object.assign(document.createElement("button"), { type: "button", textContent: each.turn + (each.refutation && each.refutation !== "pass" ? ` → ${each.refutation}` : "") });
      made.title = each.refutation ? `${NAMES[other(now.toMove)]} answers ${each.refutation}` : "";
      made.onclick = () => act(() => play(now.board.named(each.turn)));
      return made;
    }));
  }
  const choices = (walls && walls.ways.length > 1 && walls.ways) || [];
  $("closing-row").hidden = !choices.length;
  $("closing").replaceChildren(...choices.map((each, number) => new Option(`${each.stones.join(" ")} (${each.points} points)`, `${number}`)));
  if (choices.length) $("closing").value = `${walls.choice}`;
}

const fault = (words) => Object.assign($("error"), { textContent: words, hidden: false });
// What was done besides, beneath what is said of the problem.
const note = (words) => Object.assign($("note"), { textContent: words, hidden: !words });
function say(words) {
  $("say").textContent = words;
  $("error").hidden = true;
  note("");
}

// Does something that may ask the service: meanwhile Ask is Stop, and nothing else is begun. What goes wrong is said, and changes nothing.
async function act(what) {
  if (running) return;
  running = new AbortController();
  $("ask").textContent = "Stop";
  document.body.setAttribute("aria-busy", "true");
  try {
    await what(running.signal);
  } catch (wrong) {
    say(wrong.name === "AbortError" ? "Stopped." : $("say").textContent.replace(/: looking \.\.$/, "."));
    if (wrong.name !== "AbortError") fault(wrong.message);
  }
  running = null;
  $("ask").textContent = "Ask";
  document.body.removeAttribute("aria-busy");
  show();
}

// ---- setting up

const keep = () => earlier.push(JSON.stringify({ problem, walls }));

function begin(made) {
  if (running) running.abort();
  [problem, moves, at, strategies, answers, walls, proof] = [made, [], 0, [], [], null, null];
  $("checked").hidden = $("linked").hidden = $("error").hidden = true;
}

// The position as one setup: what was before doesn't count any more.
function plain(stones, mover, board) {
  const of = (colour) => [...stones].flatMap((each, point) => (each === colour ? [board.sgf(point)] : []));
  return [{ AB: of("B"), AW: of("W"), PL: [mover] }];
}

// Changes the stones or the mover where the board stands.
function edit(stones, mover) {
  keep();
  const now = game();
  const stand = problem.targets.filter((point) => stones[now.board.read(point)] !== ".");
  begin({ ...problem, nodes: plain(stones, mover, now.board), targets: stand, region: stand.length ? problem.region : [], closed: [] });
  say(START);
}

const blank = (size) => { keep(); begin(empty(size)); [tool, $("whole").checked] = ["B", true]; say(START); show(); };

function put(point) {
  const [now, stones] = [game(), [...game().stones]];
  stones[point] = tool === "E" || stones[point] === tool ? "." : tool;
  edit(stones.join(""), now.toMove);
}

function square(point) {
  keep();
  const name = game().board.sgf(point);
  const region = problem.region.includes(name) ? problem.region.filter((each) => each !== name) : [...problem.region, name];
  begin({ ...problem, region });
  say(`${region.length} points may be played.`);
}

// The group at a stone, as the service proposes it; where its wall is open, also the stones that close it.
async function mark(point, signal) {
  const now = game();
  if (now.stones[point] === ".") throw new Error("Click a stone of the group: no stone stands there.");
  const bare = { ...problem, nodes: at ? plain(now.stones, now.toMove, now.board) : problem.nodes, targets: [], region: [], closed: [] };
  const found = await post(`/mark?close=1&point=${now.board.name(point)}`, write(bare), signal);
  keep();
  if (found.event === "refused") {
    begin({ ...bare, targets: [now.board.sgf(point)] });
    throw new Error(`${found.why}.`);
  }
  begin(bare);
  take({ open: write(bare), point: now.board.name(point), ways: found.ways, choice: 0 });
}

// One of the ways to mark a problem.
function take(given) {
  walls = given;
  const way = given.ways[given.choice];
  const made = problemsOf(way.sgf)[0];
  const board = game(0).board;
  [problem, moves, at, strategies, answers, proof] = [{ ...made, name: problem.name, comment: problem.comment, closed: way.stones.map((name) => board.sgf(board.named(name))) }, [], 0, [], [], null];
  say(`The group has triangles, and ${way.points} points may be played.${way.stones.length ? ` Its wall was open: it is closed at ${way.stones.join(" and ")}.` : ""} Now ask.`);
}

function open(given) {
  const found = problemsOf(given);
  if (text(0) !== write(empty(problem.columns))) keep();
  problems = found;
  begin(found[0]);
  $("which-row").hidden = found.length < 2;
  $("which").replaceChildren(...found.map((each, number) => new Option(`${number + 1} of ${found.length}${each.name ? `: ${each.name}` : ""}`, `${number}`)));
  $("opening").open = false;
  $("whole").checked = problem.columns < 10;
  say(START);
}

// ---- asking

async function ask(signal) {
  const count = at;
  const now = game();
  if (![...now.stones].some((stone) => stone !== ".")) throw new Error("The board is empty: set up the stones first, or open an SGF.");
  const mover = NAMES[now.toMove];
  const isWhole = isFirstWay() && !count;
  say(`${mover} to play: looking ..`);
  const live = { turns: [], words: [] };
  const answer = await post(isWhole ? `/ask?point=${walls.point}` : "/ask", isWhole ? walls.open : text(), signal, (each) => {
    if (each.event === "problem" && !problem.targets.length && !count) take({ open: text(), point: "", ways: [each], choice: 0 });
    if (each.event === "verdict" && each.turn) {
      say(`${mover} begins and ${each.verdict === "killed" ? "kills" : "lives"} with ${each.turn}. Trying the other moves ..`);
      live.turns.push({ turn: each.turn, wins: true });
    }
    if (each.event === "turn") live.turns.push(each);
    answers[count] = live;
    show();
  });
  answers[count] = null;
  if (answer.event === "refused" || !answer.to_move) throw new Error(`This is no problem yet: ${answer.why}.`);
  const isOpen = answer.verdict === "unsettled";
  const advice = [CAUSES[answer.cause] || "", `What to try: fewer squares (now ${problem.region.length || now.board.size}), or make a move and ask there.`];
  const lines = isOpen ? advice : answer.lines.filter((line) => !line.startsWith("These fail"));
  answers[count] = { turns: answer.turns, words: lines };
  say(isOpen ? "Not settled." : lines.splice(lines.findIndex((line) => / begins and can/.test(line)), 1)[0]);
  tool = "P";
  show();
  if (!isOpen && !strategies[count]) await fetchStrategy(signal).catch((wrong) => fault(wrong.message));
}

// The winner's strategy where the board stands, by its certificate.
async function fetchStrategy(signal) {
  const now = game();
  const found = (await post("/cert", text(), signal)).problems[0];
  if (found.verdict === "refused") throw new Error("This is no problem yet: mark the group first.");
  if (!found.certificate) throw new Error(`Not settled here. ${CAUSES[found.cause] || ""} So there is no answer to play by: take a move back, or try fewer squares.`);
  proof = { text: text(), line: found.certificate, moves: moves.slice(0, at) };
  $("checked").hidden = true;
  return (strategies[at] = { tree: strategyOf(found.certificate, now.board), word: found.verdict });
}

// ---- playing

function make(turn, strategy) {
  [moves, strategies, answers] = [moves.slice(0, at), strategies.slice(0, at + 1), answers.slice(0, at + 1)];
  moves.push(turn);
  at += 1;
  if (strategy) strategies[at] = strategy;
}

function follow(strategy, turn) {
  const tree = strategy && (strategy.tree.pick === turn ? strategy.tree.then : strategy.tree.replies && strategy.tree.replies.get(turn));
  return tree && { ...strategy, tree };
}

// The other side's longest resistance: suicides and the pass come last.
function resistance(tree, now) {
  const legal = [...tree.replies].filter(([turn]) => !now.fault(turn));
  const last = ([turn, then]) => (turn === now.board.pass ? 2000 : now.after(turn)[turn] === "." ? 1000 : 0) - depth(then);
  return legal.sort((one, two) => last(one) - last(two))[0];
}

// How it has ended, in words; nothing where it goes on.
function ending(now, strategy) {
  if (now.targets.some((target) => now.stones[target] === ".")) return `${NAMES[now.defender]}'s group is captured.`;
  if (now.winner()) return `Both have passed: ${NAMES[now.defender]} lives.`;
  return strategy && strategy.tree.end ? `${NAMES[now.defender]} is alive: nothing takes the group any more.` : "";
}

async function play(turn, signal) {
  const now = game();
  if (!problem.targets.length) throw new Error("Mark the group first, or ask: then the moves can be tried.");
  const before = strategies[at];
  const why = ending(now, before) ? "It is over. Take a move back, or ask again." : now.fault(turn);
  if (why) return say(why);
  const [mover, name] = [now.toMove, now.board.name(turn)];
  make(turn, follow(before, turn));
  say(`${NAMES[mover]} ${name} ..`);
  show();
  const after = game();
  if (ending(after, strategies[at])) return say(ending(after, strategies[at]));
  const strategy = strategies[at] || (await fetchStrategy(running.signal));
  const [wins, wasWon] = [sideOf(strategy, after) === mover, before ? sideOf(before, now) === mover : null];
  if (ending(after, strategy)) return say(ending(after, strategy));
  const [reply, tree] = wins ? resistance(strategy.tree, after) : [strategy.tree.pick, strategy.tree.then];
  make(reply, { ...strategy, tree });
  const [answer, side] = [after.board.name(reply), NAMES[other(mover)]];
  const does = reply === after.board.pass ? `${side} passes.` : wins ? `${side} tries ${answer}.` : `${side} answers ${answer}.`;
  say([wins ? `${name} is right.` : wasWon === false ? "" : `${name} fails.`, does, ending(game(), strategies[at])].join(" ").trim());
  return show();
}

// The winner's strategy against the longest resistance, to look at move by move.
async function solution(signal) {
  const start = at;
  const strategy = strategies[at] || (await fetchStrategy(signal));
  for (let now = game(), tree = strategy.tree; !ending(now, { tree }) && at - start < LONGEST; now = game(), tree = strategies[at].tree) {
    const [turn, then] = tree.replies ? resistance(tree, now) : [tree.pick, tree.then];
    make(turn, { ...strategy, tree: then });
  }
  const [end, count] = [ending(game(), strategies[at]), at - start];
  at = Math.min(start + 1, at);
  tool = "P";
  const winner = NAMES[sideOf(strategy, game(start))];
  say(count ? `${winner} wins, here in ${count} move${count > 1 ? "s" : ""} against the longest resistance. ▶ steps on. At the end: ${end}` : end);
}

function go(count) {
  at = Math.max(0, Math.min(moves.length, count));
  const now = game();
  say(ending(now, strategies[at]) || (at ? `Move ${at} of ${moves.length}: ${NAMES[other(now.toMove)]} ${now.board.name(moves[at - 1])}.` : `${NAMES[now.toMove]} to play.`));
  show();
}

// A move with its answer; where none was made, the last change of the setup.
function takeBack() {
  if (at) {
    const count = Math.max(0, at - 2);
    [moves, strategies, answers] = [moves.slice(0, count), strategies.slice(0, count + 1), answers.slice(0, count + 1)];
    return go(count);
  }
  if (!earlier.length) return undefined;
  const before = JSON.parse(earlier.pop());
  begin(before.problem);
  walls = before.walls;
  say(START);
  return show();
}

// ---- proofs and files

async function checkProof(signal) {
  Object.assign($("checked"), { hidden: false, textContent: "Checking in this page .." });
  await new Promise((done) => setTimeout(done, 30));
  const began = performance.now();
  const here = check(proof.line, Object.assign(new Game(problem, proof.moves), { passes: 0 }));
  const took = ((performance.now() - began) / 1000).toFixed(1);
  $("checked").textContent = `Checked in this page, move by move in ${took} s: ${here}. The server's check ..`;
  const there = await post("/check", `${proof.text}\n${proof.line}\n`, signal).then((found) => [found.verdict, found.number].join(" ").trim(), (wrong) => wrong.message);
  $("checked").textContent = `Checked in this page, move by move in ${took} s: ${here}. By the server's proved checker: ${there}.`;
}

function save(content, name, type) {
  const address = URL.createObjectURL(content instanceof Blob ? content : new Blob([content], { type }));
  Object.assign(document.createElement("a"), { href: address, download: name }).click();
  setTimeout(() => URL.revokeObjectURL(address), 10000);
  note(`Saved as ${name}.`);
}

const isFirstWay = () => Boolean(walls && walls.choice === 0);
const hasSolution = () => Boolean(answers[0] && answers[0].turns.length);
const fileName = (end) => `${(problem.name || "problem").normalize("NFKD").replace(/[^A-Za-z0-9]+/g, "-").replace(/^-|-$/g, "").toLowerCase().slice(0, 40) || "problem"}${end}`;

// The problem with its whole solution, once it has been answered; else the problem with the moves that were made.
async function saveSgf(signal) {
  let content = text(moves.length);
  if (hasSolution()) {
    note("Writing the solution ..");
    const found = await (isFirstWay() ? post(`/solution?point=${walls.point}`, walls.open, signal) : post("/solution", text(0), signal)).catch((wrong) => fault(`${wrong.message} The problem is saved without its solution.`));
    if (found && found.sgf) content = found.sgf;
  }
  const words = $("error").hidden ? "" : $("error").textContent;
  save(`${content}\n`, fileName(".sgf"), "application/x-go-sgf");
  if (words) fault(words);
}

async function link() {
  [$("address").value, $("linked").hidden] = [location.href, false];
  $("address").select();
  await navigator.clipboard.writeText(location.href).then(() => note("The link is copied."), () => note("Copy the link below."));
}

// ---- what people do

function click(point) {
  cursor = document.activeElement === $("board") && cursor !== null ? point : null;
  if ("GP".includes(tool)) return act((signal) => (tool === "G" ? mark(point, signal) : play(point, signal)));
  if (running) return undefined;
  (tool === "S" ? square : put)(point);
  return show();
}

function press(event) {
  const step = { ArrowLeft: [-1, 0], ArrowRight: [1, 0], ArrowUp: [0, -1], ArrowDown: [0, 1] }[event.key];
  const now = game();
  const { columns, rows } = now.board;
  if (step) {
    const from = cursor === null ? Math.floor(rows / 2) * columns + Math.floor(columns / 2) : cursor;
    const [x, y] = cursor === null ? [0, 0] : step;
    cursor = Math.max(0, Math.min(rows - 1, Math.floor(from / columns) + y)) * columns + Math.max(0, Math.min(columns - 1, (from % columns) + x));
    $("whole").checked = true;
    show();
    const found = signs(now).get(cursor);
    const stone = { B: "black stone", W: "white stone", ".": "empty" }[now.stones[cursor]];
    const parts = [now.board.name(cursor), stone, now.targets.includes(cursor) ? "in the group" : "", { win: "wins", fail: "fails", unknown: "open" }[found]];
    $("spoken").textContent = parts.filter(Boolean).join(", ");
  } else if ((event.key === "Enter" || event.key === " ") && cursor !== null) click(cursor);
  else return;
  event.preventDefault();
}

// Opens a text: what can't be read is said, and changes nothing.
function openText(read) {
  try {
    open(read());
    show();
  } catch (wrong) {
    fault(wrong instanceof URIError ? "The link can't be read." : wrong.message);
  }
}

async function openFile(file) {
  if (file) { const given = await readFile(file); openText(() => given); }
}

function wire() {
  const on = (id, what) => $(id).addEventListener("click", what);
  const hints = { G: "Click a stone of the group.", S: "Click the points where plays are allowed.", P: "Click a move: the other side answers." };
  for (const each of "BWEGSP") on(`tool-${each}`, () => { tool = each; say(hints[each] || START); show(); });
  on("ask", () => (running ? running.abort() : act(ask)));
  on("other", () => { if (!running) { const now = game(0); edit(now.stones, other(now.toMove)); if (problem.targets.length) act(ask); else show(); } });
  for (const [id, to] of Object.entries({ first: () => 0, back: () => at - 1, forward: () => at + 1, last: () => moves.length })) on(id, () => go(to()));
  on("undo", takeBack);
  on("pass", () => act((signal) => play(game().board.pass, signal)));
  on("solution", () => act(solution));
  on("check", () => act(checkProof));
  on("proof", () => save(`${proof.text}\n${proof.line}\n`, fileName("-proof.txt"), "text/plain"));
  on("save", () => act(saveSgf));
  on("picture", () => act(async () => save(await pictureOf($("board")), fileName(".png"))));
  on("link", link);
  on("new", () => blank(problem.columns));
  on("load", () => openText(() => $("text").value));
  for (const each of document.querySelectorAll("[data-example]")) each.addEventListener("click", () => openText(() => EXAMPLES[Number(each.dataset.example)]));
  $("mover").addEventListener("change", () => { edit(game().stones, $("mover").value); show(); });
  $("size").replaceChildren(...Array.from({ length: 15 }, (_, number) => new Option(`${number + 5}`, `${number + 5}`)));
  $("size").addEventListener("change", () => blank(Number($("size").value)));
  $("whole").addEventListener("change", show);
  $("which").addEventListener("change", () => { keep(); begin(problems[Number($("which").value)]); say(START); show(); $("board").scrollIntoView({ block: "nearest" }); });
  $("closing").addEventListener("change", () => { take({ ...walls, choice: Number($("closing").value) }); show(); });
  $("file").addEventListener("change", () => openFile($("file").files[0]));
  $("board").addEventListener("click", (event) => { const hit = event.target.closest("[data-point]"); if (hit) click(Number(hit.dataset.point)); });
  $("board").addEventListener("keydown", press);
  document.addEventListener("paste", (event) => { if (!event.target.closest("textarea, input")) openText(() => event.clipboardData.getData("text")); });
  for (const name of ["dragover", "dragleave", "drop"]) {
    document.addEventListener(name, (event) => { event.preventDefault(); document.body.classList.toggle("dropping", name === "dragover"); });
  }
  document.addEventListener("drop", (event) => openFile(event.dataTransfer.files[0]));
  window.addEventListener("hashchange", fromLink);
}

function fromLink() {
  say(START);
  if (location.hash.length > 1) openText(() => decodeURIComponent(location.hash.slice(1)));
  else show();
}

wire();
fromLink();
