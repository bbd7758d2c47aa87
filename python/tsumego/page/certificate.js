// Certificates: the text of a strategy as a tree to play by, and a checker of its own that follows docs/FORMATS.md, "A checker in a page" and
// "Shared parts". It shares nothing with the program: it believes neither the verdict nor the text.
import { other } from "./rules.js";

// A strategy is {pick, then}, a turn of its own side; {replies}, a Map of the other side's turns with what follows each; or {end: true}.
export function strategyOf(line, board) {
  const text = line.slice(line.indexOf(" ") + 1);
  const named = [];
  let at = 0;
  const turn = () => board.read(text.slice(at, (at += 2)));
  function tree() {
    const isNamed = text[at] === "=";
    if (isNamed) at += 1;
    const kind = text[at++];
    if (kind === ".") return { end: true };
    if (kind === "*") {
      const digits = /^\d+/.exec(text.slice(at, at + 9))[0];
      at += digits.length;
      return named[Number(digits)];
    }
    const found = kind === "!" ? { pick: turn() } : { replies: new Map() };
    if (kind === "!") found.then = tree();
    else for (; text[at] !== ";"; ) found.replies.set(turn(), tree());
    if (kind !== "!") at += 1;
    if (isNamed) named.push(found);
    return found;
  }
  return tree();
}

const depths = new WeakMap();
// How many turns a strategy can be resisted.
export function depth(tree) {
  if (!depths.has(tree)) depths.set(tree, tree.end ? 0 : 1 + Math.max(0, ...(tree.then ? [depth(tree.then)] : [...tree.replies.values()].map(depth))));
  return depths.get(tree);
}

const MOST_LEVELS = 512;
const whereOf = (game) => `${game.stones}${game.toMove}${game.passes}`;
const refuse = (number) => {
  throw number;
};

// Whether a certificate wins where a game stands: `valid`, `invalid` or `refused NUMBER`. The game is used up.
export function check(text, game) {
  try {
    return new Checker(text.trim(), game).answer();
  } catch (fault) {
    if (typeof fault === "number") return `refused ${fault}`;
    throw fault;
  }
}

class Checker {
  constructor(text, game) {
    // Of each named tree its footprint, where it stands and wins, its position and its depth.
    Object.assign(this, { text, game, at: 0, named: [], deepest: 0, allFit: true });
    this.side = this.next("killed ") ? other(game.defender) : this.next("lives ") ? game.defender : refuse(30);
  }

  answer() {
    const found = this.tree(1, true);
    if (this.at < this.text.length) refuse(30);
    return this.allFit ? (found ? "valid" : "invalid") : "refused 32";
  }

  // Whether the word stands here; it is then read.
  next = (word) => this.text.startsWith(word, this.at) && Boolean((this.at += word.length));
  goesTo = (level) => (this.deepest = level > MOST_LEVELS ? refuse(31) : Math.max(this.deepest, level));

  turn(level, last) {
    const word = this.text.slice(this.at, this.at + 2);
    const turn = word === "--" || /^[a-s]{2}$/.test(word) ? this.game.board.read(word) : -1;
    if (turn <= last || (turn === this.game.board.pass && word !== "--")) refuse(30);
    this.goesTo(level);
    this.at += 2;
    return turn;
  }

  // Those of the turns that are legal, each with the position after it; and the positions that plays may not repeat.
  legal(turns) {
    const game = this.game;
    const [found, repeated] = [new Map(), new Set()];
    for (const turn of turns) {
      if (turn !== game.board.pass && (game.stones[turn] !== "." || !game.region.has(turn))) continue;
      const after = game.after(turn);
      if (turn !== game.board.pass && game.earlier.has(after)) repeated.add(after);
      else found.set(turn, after);
    }
    return [found, repeated];
  }

  // The tree here, behind the turn: its footprint as it is in front of the turn, or null where it doesn't win.
  treeAfter(turn, after, level) {
    const game = this.game;
    const { stones, toMove, passes } = game;
    const isPass = turn === game.board.pass;
    Object.assign(game, { stones: after, toMove: other(toMove), passes: isPass ? passes + 1 : 0 });
    game.earlier.add(after);
    const found = this.tree(level + 1, true);
    Object.assign(game, { stones, toMove, passes });
    if (!isPass) game.earlier.delete(after);
    if (found && !isPass) found.needs.delete(after);
    if (found && !isPass && toMove === this.side) found.avoids.add(after);
    return found;
  }

  // Reads the tree here: its footprint, or null where it doesn't win, or no play reaches it and it is read only.
  tree(level, isReached) {
    const game = this.game;
    if (this.next(".")) return isReached && (game.winner() === this.side || this.endsAtLife()) ? { needs: new Set(), avoids: new Set() } : null;
    if (this.next("*")) return this.part(level, isReached);
    if (this.next("=")) return this.treeWithName(level, isReached);
    const goesOn = isReached && !game.winner();
    if (this.next("!")) {
      const turn = this.turn(level, -1);
      const [legal] = goesOn && game.toMove === this.side ? this.legal([turn]) : [new Map()];
      if (legal.has(turn)) return this.treeAfter(turn, legal.get(turn), level);
      this.tree(level + 1, false);
      return null;
    }
    if (!this.next("?")) refuse(30);
    let wins = goesOn && game.toMove !== this.side;
    const [unanswered, repeated] = wins ? this.legal(Array(game.board.size + 1).keys()) : [new Map(), new Set()];
    const found = { needs: repeated, avoids: new Set() };
    for (let turn = -1; !this.next(";"); ) {
      turn = this.turn(level, turn);
      const isLegal = unanswered.has(turn);
      const answer = isLegal ? this.treeAfter(turn, unanswered.get(turn), level) : this.tree(level + 1, false);
      if (!isLegal) continue;
      unanswered.delete(turn);
      wins = wins && answer !== null;
      if (wins) for (const kind of ["needs", "avoids"]) for (const each of answer[kind]) found[kind].add(each);
    }
    return wins && !unanswered.size ? found : null;
  }

  // The attacker is to move, nobody has won, and the targets are unconditionally alive.
  endsAtLife = () => this.side === this.game.defender && this.game.toMove !== this.side && !this.game.winner() && isAlive(this.game);

  treeWithName(level, isReached) {
    if (!"!?".includes(this.text[this.at] || ".")) refuse(30);
    const [outside, where] = [this.deepest, whereOf(this.game)];
    this.deepest = level - 1;
    const found = this.tree(level, isReached);
    const kept = found && { needs: new Set(found.needs), avoids: new Set(found.avoids) };
    this.named.push({ kept, where, depth: this.deepest - level + 1 });
    this.deepest = Math.max(outside, this.deepest);
    return found;
  }

  part(level, isReached) {
    const digits = (/^(0|[1-9][0-9]{0,8})(?![0-9])/.exec(this.text.slice(this.at, this.at + 10)) || refuse(30))[0];
    const part = this.named[Number(digits)] || refuse(30);
    this.at += digits.length;
    this.goesTo(level + part.depth - 1);
    if (!isReached) return null;
    const { earlier } = this.game;
    const fits = part.kept && part.where === whereOf(this.game) && [...part.kept.needs].every((each) => earlier.has(each)) && ![...part.kept.avoids].some((each) => earlier.has(each));
    if (fits) return { needs: new Set(part.kept.needs), avoids: new Set(part.kept.avoids) };
    this.allFit = false;
    return null;
  }
}

// Whether the targets are unconditionally alive: a chain of the defender stays that touches an empty point outside the region, or all points of
// two eyes; the others are left out, till all stay. An eye is an area without stones of the defender that has an empty point.
function isAlive({ board, stones, region, targets, defender }) {
  const points = [...Array(board.size).keys()];
  let own = new Set(points.filter((point) => stones[point] === defender));
  let chains = board.areas([...own]);
  let eyes = board.areas(points.filter((point) => !own.has(point))).filter(([eye]) => [...eye].some((point) => stones[point] === "."));
  const within = (inner, outer) => [...inner].every((point) => outer.has(point));
  for (;;) {
    eyes = eyes.filter(([, walls]) => within(walls, own));
    const stay = chains.filter(([, touched]) => [...touched].some((point) => stones[point] === "." && !region.has(point)) || eyes.filter(([eye]) => within(eye, touched)).length > 1);
    if (stay.length === chains.length) return targets.every((target) => own.has(target));
    chains = stay;
    own = new Set(stay.flatMap(([chain]) => [...chain]));
  }
}
