// Draws the board as a picture (SVG) that looks the same on the page and in a file: all looks are attributes of the picture's parts.

// A cell of the picture, and the largest one on the page. So near an edge the picture goes to the edge.
const [CELL, MOST_CELL, NEAR] = [30, 52, 4];
const [INK, PAPER, WOOD] = ["#1a1a1a", "#fff", "#e8c583"];
const SIGNS = { win: ["+", "#17713a"], fail: ["−", "#b3261e"], unknown: ["?", "#5f6368"] };

function make(name, attributes, ...parts) {
  const made = document.createElementNS("http://www.w3.org/2000/svg", name);
  for (const [key, value] of Object.entries(attributes)) made.setAttribute(key, value);
  made.append(...parts);
  return made;
}

// The part of the board around the points that matter: [left, top, right, bottom].
export function windowOf(board, points) {
  const span = (values, count) => {
    const [first, last] = [Math.min(...values) - 1, Math.max(...values) + 1];
    return [first < NEAR ? 0 : first, last >= count - NEAR ? count - 1 : last];
  };
  if (!points.length) return [0, 0, board.columns - 1, board.rows - 1];
  const [left, right] = span(points.map((point) => point % board.columns), board.columns);
  const [top, bottom] = span(points.map((point) => Math.floor(point / board.columns)), board.rows);
  return [left, top, right, bottom];
}

// Draws a position into `svg`. `look` has: board, stones, part (a window), targets and region (Sets), closed (a Set: stones that close an open wall),
// signs (a Map from a point to win, fail or unknown), numbers (a Map from a point to a number), cursor (a point, or null).
export function draw(svg, look) {
  const { board, part: [left, top, right, bottom] } = look;
  const [wide, high] = [right - left + 1, bottom - top + 1];
  const place = (point) => [((point % board.columns) - left + 1.5) * CELL, (Math.floor(point / board.columns) - top + 1.5) * CELL];
  svg.setAttribute("viewBox", `0 0 ${(wide + 1.25) * CELL} ${(high + 1.25) * CELL}`);
  svg.setAttribute("font-family", "system-ui, sans-serif");
  svg.style.maxWidth = `min(${(wide + 1.25) * MOST_CELL}px, max(340px, (100vh - 190px) * ${(wide + 1.25) / (high + 1.25)}))`;
  svg.replaceChildren(shades(), make("rect", { width: "100%", height: "100%", fill: WOOD, rx: 6 }), ...lines(look), ...stars(look, place));
  for (let row = top; row <= bottom; row += 1) {
    for (let column = left; column <= right; column += 1) {
      const point = row * board.columns + column;
      svg.append(...onPoint(look, point, ...place(point)));
      const [x, y] = place(point);
      svg.append(make("rect", { class: "point", id: `p-${board.sgf(point)}`, "data-point": point, x: x - CELL / 2, y: y - CELL / 2, width: CELL, height: CELL, fill: "transparent" }));
    }
  }
  if (look.cursor !== null) {
    const [x, y] = place(look.cursor);
    svg.append(make("rect", { class: "cursor", x: x - CELL / 2 + 1, y: y - CELL / 2 + 1, width: CELL - 2, height: CELL - 2, rx: 4, fill: "none", stroke: "#0b57d0", "stroke-width": 2.5 }));
  }
}

// What gives stones their shape.
function shades() {
  const shade = (id, inner, outer) => make("radialGradient", { id, cx: 0.38, cy: 0.34, r: 0.75 }, make("stop", { offset: 0, "stop-color": inner }), make("stop", { offset: 1, "stop-color": outer }));
  return make("defs", {}, shade("black", "#555", "#0c0c0c"), shade("white", "#fff", "#d9d6cd"));
}

// The lines, half a cell past the window where the board goes on, and the coordinates.
function lines({ board, part: [left, top, right, bottom] }) {
  const at = (n) => (n + 1.5) * CELL;
  const [x0, x1] = [at(left ? -0.5 : 0), at(right - left + (right < board.columns - 1 ? 0.5 : 0))];
  const [y0, y1] = [at(top ? -0.5 : 0), at(bottom - top + (bottom < board.rows - 1 ? 0.5 : 0))];
  const text = (x, y, words) => make("text", { x, y, "font-size": 12, "text-anchor": "middle", fill: "#5a4420" }, words);
  const found = [];
  for (let row = top; row <= bottom; row += 1) {
    found.push(make("path", { d: `M${x0} ${at(row - top)}H${x1}`, stroke: "#4d3a1c", "stroke-width": row === 0 || row === board.rows - 1 ? 2 : 1 }));
    found.push(text(CELL * 0.45, at(row - top) + 4, `${board.rows - row}`));
  }
  for (let column = left; column <= right; column += 1) {
    found.push(make("path", { d: `M${at(column - left)} ${y0}V${y1}`, stroke: "#4d3a1c", "stroke-width": column === 0 || column === board.columns - 1 ? 2 : 1 }));
    found.push(text(at(column - left), CELL * 0.6, board.name(column)[0]));
  }
  return found;
}

function stars({ board, part: [left, top, right, bottom] }, place) {
  if (board.columns !== board.rows || board.columns < 9) return [];
  const edge = board.columns < 12 ? 2 : 3;
  const middle = board.columns % 2 ? [(board.columns - 1) / 2] : [];
  const rows = [edge, ...(board.columns > 12 ? middle : []), board.columns - 1 - edge];
  const points = rows.flatMap((row) => rows.map((column) => [column, row])).concat(board.columns < 13 ? middle.map((each) => [each, each]) : []);
  return points.filter(([x, y]) => x >= left && x <= right && y >= top && y <= bottom).map(([x, y]) => {
    const [cx, cy] = place(y * board.columns + x);
    return make("circle", { cx, cy, r: 3.5, fill: "#4d3a1c" });
  });
}

// What stands on a point: a stone with a number or a triangle, a sign, a square.
function onPoint(look, point, x, y) {
  const stone = look.stones[point];
  const ink = stone === "B" ? PAPER : INK;
  const found = [];
  const text = (words, fill) => make("text", { x, y: y + 5, "font-size": 15, "font-weight": 700, "text-anchor": "middle", fill }, words);
  if (stone !== ".") {
    found.push(make("circle", { cx: x, cy: y, r: CELL * 0.475, fill: stone === "B" ? "url(#black)" : "url(#white)", stroke: "#222", "stroke-width": 0.8 }));
    if (look.closed.has(point)) found.push(make("circle", { cx: x, cy: y, r: CELL * 0.3, fill: "none", stroke: "#2f7de1", "stroke-width": 2, "stroke-dasharray": "3 2.5" }));
    if (look.numbers.has(point)) found.push(text(`${look.numbers.get(point)}`, ink));
    else if (look.targets.has(point)) found.push(make("path", { d: `M${x} ${y - 8}l7.5 13h-15z`, fill: "none", stroke: ink, "stroke-width": 1.8 }));
  } else if (look.signs.has(point)) {
    const [sign, colour] = SIGNS[look.signs.get(point)];
    found.push(make("circle", { cx: x, cy: y, r: CELL * 0.36, fill: colour }), text(sign, PAPER));
  } else if (look.region.has(point)) {
    found.push(make("rect", { x: x - 4, y: y - 4, width: 8, height: 8, fill: "#8a6a32", "fill-opacity": 0.55 }));
  }
  return found;
}

// The picture as a file: a PNG, three times as large as its lines.
export async function pictureOf(svg) {
  const copy = svg.cloneNode(true);
  for (const each of copy.querySelectorAll(".point, .cursor")) each.remove();
  const [, , width, height] = svg.getAttribute("viewBox").split(" ").map(Number);
  for (const [key, value] of Object.entries({ xmlns: "http://www.w3.org/2000/svg", width, height })) copy.setAttribute(key, value);
  const address = URL.createObjectURL(new Blob([new XMLSerializer().serializeToString(copy)], { type: "image/svg+xml" }));
  try {
    const image = new Image(width * 3, height * 3);
    image.src = address;
    await image.decode();
    const canvas = Object.assign(document.createElement("canvas"), { width: width * 3, height: height * 3 });
    canvas.getContext("2d").drawImage(image, 0, 0, width * 3, height * 3);
    return await new Promise((done) => canvas.toBlob(done, "image/png"));
  } finally {
    URL.revokeObjectURL(address);
  }
}
