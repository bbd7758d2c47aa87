// Game trees in SGF, and the problems in them.
// A problem has `nodes` that set up stones or move, `targets` (triangles) and `region` (squares) in SGF's letters, a name and a comment.

const TOKEN = /[\t-\r ]*(?:([();])|([A-Za-z0-9]+)|\[((?:[^\]\\]|\\[^])*)\])/y;
// What may stand behind what: marks, names (n) and values (v).
const BEHIND = { "": "(", "(": ";", ";": ";()n", n: "v", v: ";()nv", ")": "()" };
const [SETUP, LETTERS] = [["AB", "AW", "AE"], "abcdefghijklmnopqrs"];

export const empty = (size) => ({ columns: size, rows: size, nodes: [], targets: [], region: [], name: "", comment: "" });

// The trees of a text: {nodes, trees}, a node as {AB: [values]}. Throws an Error in words.
function treesOf(text) {
  const found = [];
  for (let at = text.indexOf("("); at >= 0; at = text.indexOf("(", at)) {
    const open = [];
    let [last, name, tree] = ["", "", null];
    do {
      TOKEN.lastIndex = at;
      const token = TOKEN.exec(text);
      const kind = token && (token[1] || (token[2] ? "n" : "v"));
      if (!token || !BEHIND[last].includes(kind)) throw new Error(`Line ${text.slice(0, at).split("\n").length} of the SGF can't be read: a bracket may be missing.`);
      [at, last] = [TOKEN.lastIndex, kind];
      const top = open[open.length - 1];
      if (kind === "(") {
        tree = { nodes: [], trees: [] };
        if (top) top.trees.push(tree);
        open.push(tree);
      } else if (kind === ")") tree = open.pop();
      else if (kind === ";") top.nodes.push({});
      else if (kind === "n") name = token[2].replace(/[a-z]/g, "");
      else (top.nodes[top.nodes.length - 1][name] ||= []).push(token[3]);
    } while (open.length);
    found.push(tree);
  }
  if (!found.length) throw new Error("There is no game tree in this text: an SGF begins with (;");
  return found;
}

// The problems of a tree: itself, or its variations where all of them set up stones, as those of a chapter do.
function chapter(tree) {
  const sets = (each) => each.nodes.length && (each.nodes[0].AB || each.nodes[0].AW);
  if (tree.trees.length < 2 || !tree.trees.every(sets)) return [tree];
  return tree.trees.flatMap((each) => {
    const { SZ, ...first } = each.nodes[0];
    const root = SZ ? { ...tree.nodes[0], SZ } : tree.nodes[0];
    return chapter({ nodes: [root, ...tree.nodes.slice(1), first, ...each.nodes.slice(1)], trees: each.trees });
  });
}

// Points of a list of points and rectangles.
function pointsOf(values = []) {
  return values.flatMap((value) => {
    const [one, two = one] = value.trim().split(":").map((corner) => [...corner].map((letter) => LETTERS.indexOf(letter)));
    if ([...one, ...two].includes(-1) || one.length !== 2 || two.length !== 2) throw new Error("A point of the SGF can't be read.");
    const range = (axis) => LETTERS.slice(Math.min(one[axis], two[axis]), Math.max(one[axis], two[axis]) + 1);
    return [...range(1)].flatMap((row) => [...range(0)].map((column) => column + row));
  });
}

const plain = (value = "") => value.replace(/\\(\r\n|\n\r|[^])/g, (_, each) => (/[\r\n]/.test(each) ? "" : each));
const escaped = (text) => text.replace(/[\]\\]/g, "\\$&");

function problemOf(tree) {
  const line = [...tree.nodes];
  for (let at = tree; at.trees.length; ) line.push(...(at = at.trees[0]).nodes);
  const sides = (line[0].SZ || ["19"])[0].trim().split(":").map(Number);
  const [columns, rows] = [sides[0], sides[sides.length - 1]];
  if (!(columns >= 1 && columns <= 19 && rows >= 1 && rows <= 19)) throw new Error("The board's size isn't from 1 to 19.");
  // The node with triangles; or the one in front of the solution's first move.
  let at = line.findIndex((node) => node.TR);
  if (at < 0) {
    const setup = line.findIndex((node) => node.AB || node.AW);
    const move = line.findIndex((node, number) => (node.B || node.W) && setup >= 0 && number > setup);
    at = (move < 0 ? line.length : move) - 1;
  }
  const front = line.slice(0, at + 1);
  const nodes = front.map((node) => {
    const kept = Object.fromEntries(["B", "W", "PL"].filter((name) => node[name]).map((name) => [name, node[name].slice(0, 1)]));
    for (const name of SETUP) if (node[name]) kept[name] = pointsOf(node[name]);
    return kept;
  });
  const comment = plain((front.filter((node) => node.C).pop() || { C: [""] }).C[0]);
  const inside = (point) => LETTERS.indexOf(point[0]) < columns && LETTERS.indexOf(point[1]) < rows;
  const isTurn = (word) => ["", "tt"].includes(word) || (/^[a-s]{2}$/.test(word) && inside(word));
  const isRead = (node) => /^[bw]/i.test((node.PL || ["B"])[0].trim()) && ["B", "W"].every((name) => !node[name] || isTurn(node[name][0].trim()));
  if (!nodes.every(isRead)) throw new Error("A move or a PL of the SGF can't be read.");
  const [targets, region] = [pointsOf(line[at].TR), pointsOf(line[at].SQ)];
  if (![...targets, ...region, ...nodes.flatMap((node) => SETUP.flatMap((name) => node[name] || []))].every(inside)) throw new Error("A point isn't on the board.");
  return { columns, rows, nodes: nodes.filter((node) => Object.keys(node).length), targets, region, name: plain((line[0].GN || [""])[0]).trim(), comment: comment.trim() };
}

export const problemsOf = (text) => treesOf(text).flatMap(chapter).map(problemOf);

// The problem as SGF, with moves ([colour, letters]) behind it, and the marks in the last node.
export function write(problem, moves = [], hasMarks = true) {
  const list = (name, values) => (values && values.length ? name + values.map((value) => `[${value}]`).join("") : "");
  const node = (each) => [...SETUP, "PL", "B", "W"].map((name) => list(name, each[name])).join("");
  const words = (problem.name ? `GN[${escaped(problem.name)}]` : "") + (problem.comment ? `C[${escaped(problem.comment)}]` : "");
  const size = problem.columns === problem.rows ? problem.columns : `${problem.columns}:${problem.rows}`;
  const nodes = [...problem.nodes.map(node), ...moves.map(([colour, letters]) => `${colour}[${letters}]`)];
  const marks = hasMarks ? list("TR", problem.targets) + list("SQ", problem.region) : "";
  return `(;GM[1]FF[4]CA[UTF-8]SZ[${size}]${words}${nodes.join(";")}${marks})`;
}

// The text of a file: by the encoding that CA names, else as UTF-8.
export async function readFile(file) {
  const bytes = await file.arrayBuffer();
  const charset = /CA\[\s*([^\]]+?)\s*\]/.exec(new TextDecoder("latin1").decode(bytes.slice(0, 4096)));
  try {
    return new TextDecoder(charset ? charset[1] : "utf-8").decode(bytes);
  } catch {
    return new TextDecoder().decode(bytes);
  }
}
