// The board and the rules: Tromp-Taylor, so no play may repeat a position, and several stones may commit suicide.
// A point is a number, row by row; a position is a string with a letter for each point: B, W or a dot.

export const NAMES = { B: "Black", W: "White" };
export const other = (colour) => (colour === "B" ? "W" : "B");
const [LETTERS, COLUMNS] = ["abcdefghijklmnopqrs", "ABCDEFGHJKLMNOPQRST"];

export class Board {
  constructor(columns, rows) {
    Object.assign(this, { columns, rows, size: columns * rows });
    // What a turn is that plays on no point.
    this.pass = this.size;
    this.near = Array.from({ length: this.size }, (_, point) => this.beside(point));
  }

  beside(point) {
    const [x, y] = [point % this.columns, Math.floor(point / this.columns)];
    return [[x, y - 1], [x - 1, y], [x + 1, y], [x, y + 1]].filter(([a, b]) => a >= 0 && b >= 0 && a < this.columns && b < this.rows).map(([a, b]) => b * this.columns + a);
  }

  // The point of SGF's two letters, the pass for `--` and for nothing; -1 where they are neither.
  read(word) {
    if (word === "" || word === "--" || (word === "tt" && this.columns < 20)) return this.pass;
    const [x, y] = [LETTERS.indexOf(word[0]), LETTERS.indexOf(word[1])];
    return word.length === 2 && x >= 0 && y >= 0 && x < this.columns && y < this.rows ? y * this.columns + x : -1;
  }

  // A turn as SGF names it, and as editors do: C18. And the turn that an editor's name means.
  sgf = (turn) => (turn === this.pass ? "" : LETTERS[turn % this.columns] + LETTERS[Math.floor(turn / this.columns)]);
  name = (turn) => (turn === this.pass ? "pass" : COLUMNS[turn % this.columns] + (this.rows - Math.floor(turn / this.columns)));
  named = (name) => (name === "pass" ? this.pass : (this.rows - Number(name.slice(1))) * this.columns + COLUMNS.indexOf(name[0]));

  // The stones of the chain at a point where it has no liberty; else nothing.
  dead(stones, point) {
    const chain = [point];
    const seen = new Set(chain);
    for (const stone of chain) {
      for (const near of this.near[stone]) {
        if (stones[near] === ".") return [];
        if (stones[near] === stones[point] && !seen.has(near)) seen.add(near) && chain.push(near);
      }
    }
    return chain;
  }

  // The position after a stone on an empty point: the other's chains without liberties are taken, and then one's own.
  play(position, colour, point) {
    let stones = position.slice(0, point) + colour + position.slice(point + 1);
    for (const place of [...this.near[point], point]) {
      const taken = stones[place] === (place === point ? colour : other(colour)) ? this.dead(stones, place) : [];
      for (const stone of taken) stones = `${stones.slice(0, stone)}.${stones.slice(stone + 1)}`;
    }
    return stones;
  }

  // The points as areas of adjacent ones, each with the points beside it.
  areas(points) {
    const left = new Set(points);
    const found = [];
    for (const first of points) {
      if (!left.delete(first)) continue;
      const area = [first];
      const beside = new Set();
      for (const point of area) for (const near of this.near[point]) left.delete(near) ? area.push(near) : beside.add(near);
      for (const point of area) beside.delete(point);
      found.push([new Set(area), beside]);
    }
    return found;
  }
}

// A problem as it stands after its own nodes, and after moves that are tried.
export class Game {
  constructor(problem, moves = []) {
    this.board = new Board(problem.columns, problem.rows);
    Object.assign(this, { stones: ".".repeat(this.board.size), toMove: "B", passes: 0, last: this.board.pass });
    this.earlier = new Set([this.stones]);
    for (const node of problem.nodes) this.take(node);
    const read = (names) => names.map((name) => this.board.read(name));
    this.targets = read(problem.targets);
    this.region = new Set(problem.region.length ? read(problem.region) : Array(this.board.size).keys());
    this.defender = this.targets.length && this.stones[this.targets[0]] !== "." ? this.stones[this.targets[0]] : null;
    this.passes = 0;
    for (const turn of moves) this.make(turn);
  }

  // A node of the record: stones are set up, or a move is made.
  take(node) {
    const moves = ["B", "W"].filter((colour) => node[colour]);
    if (!moves.length) {
      const stones = [...this.stones];
      for (const [name, colour] of [["AB", "B"], ["AW", "W"], ["AE", "."]]) for (const point of node[name] || []) stones[this.board.read(point)] = colour;
      Object.assign(this, { stones: stones.join(""), toMove: (node.PL || ["B"])[0].trim()[0].toUpperCase(), passes: 0 });
      this.earlier = new Set([this.stones]);
    }
    for (const colour of moves) {
      if (colour !== this.toMove) this.make(this.board.pass);
      this.make(this.board.read(node[colour][0].trim()));
    }
  }

  after = (turn) => (turn === this.board.pass ? this.stones : this.board.play(this.stones, this.toMove, turn));

  make(turn) {
    Object.assign(this, { stones: this.after(turn), passes: turn === this.board.pass ? this.passes + 1 : 0, last: turn, toMove: other(this.toMove) });
    this.earlier.add(this.stones);
  }

  // Why a turn can't be made, in words; nothing where it can.
  fault(turn) {
    if (turn === this.board.pass) return "";
    if (this.stones[turn] !== ".") return "A stone stands there.";
    if (!this.region.has(turn)) return "Only the points with squares can be played: they are the problem's region.";
    const after = this.after(turn);
    if (after === this.stones) return "That stone would have no liberty.";
    return this.earlier.has(after) ? "That would repeat a position (ko)." : "";
  }

  // The colour that has won, if one has: the attacker as soon as a target is taken, the defender at two passes.
  winner() {
    if (this.targets.some((target) => this.stones[target] === ".")) return other(this.defender);
    return this.passes >= 2 ? this.defender : null;
  }
}
