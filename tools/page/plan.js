// Draws the plan and the side view: what stands still in steps, and what moves over it. A step yields about how many
// microseconds the processor takes for it.

const GREY = "#777777", RED = "#e00000", GREEN = "#1a7f37", BROWN = "#8a5a00", TAN = "#e3d3bd", LIT = "#ff9d00";
const FONT = '12px "DejaVu Sans", Verdana, sans-serif';
const [base, over, front, frontOver] = ["base", "over", "front", "frontOver"].map((name) => document.getElementById(name));
// the version is another where the options are
const view = { x: 0, y: 0, scale: 1, width: 1, height: 1, ratio: 1, version: 0 };
const options = { strokes: true, surfaces: true, names: true, rapids: true };

const across = (x) => view.width / 2 + (x - view.x) * view.scale;
const down = (y) => view.height / 2 - (y - view.y) * view.scale;
const unitsX = (px) => view.x + (px - view.width / 2) / view.scale;
const unitsY = (px) => view.y - (px - view.height / 2) / view.scale;
const bounds = (margin = 0) => [unitsX(-margin), unitsY(view.height + margin), unitsX(view.width + margin), unitsY(-margin)];
const meets = (box, at, seen, more) => box[at] - more <= seen[2] && box[at + 2] + more >= seen[0] && box[at + 1] - more <= seen[3] && box[at + 3] + more >= seen[1];

// ---- runs of segments, each with its rectangle, so that those out of view are passed over

const LONGEST = 128;

function addTo(runs, n) {
  const last = runs.ends.length - 1;
  if (last >= 0 && runs.ends[last] === n && n - runs.starts[last] < LONGEST) runs.ends[last] = n + 1;
  else {
    runs.starts.push(n);
    runs.ends.push(n + 1);
  }
}

function measured(runs) {
  runs.boxes = Float64Array.from(runs.starts.flatMap((start, n) => boxOf(start, runs.ends[n])));
  return runs;
}

function runsOf(found) {
  const runs = { starts: [], ends: [] };
  for (const motion of found) for (let n = rows.first[motion]; n < endOf(motion); n++) if (n > 0 || data.hasOrigin) addTo(runs, n);
  return measured(runs);
}

// cuts by height and cutter, the deepest last
const layers = [];
{
  const found = new Map();
  for (let motion = 0; motion < motions; motion++) {
    const cutter = cutterOf(motion);
    for (let n = rows.first[motion]; n < endOf(motion); n++) {
      if (kinds[n] !== CUT || (n === 0 && !data.hasOrigin)) continue;
      const isUpright = X[n] === X[n + 1] && Y[n] === Y[n + 1];
      if (isUpright && Z[n + 1] >= Z[n]) continue;
      // a cut aslant has one of a few shades
      const z = isUpright || Z[n] === Z[n + 1] ? Z[n + 1] : Math.round((Z[n] + Z[n + 1]) / 2 / 500) * 500;
      const key = `${z} ${cutter}`;
      if (!found.has(key)) found.set(key, { z, cutter, starts: [], ends: [] });
      addTo(found.get(key), n);
    }
  }
  layers.push(...[...found.values()].map(measured).sort((one, two) => two.z - one.z || two.cutter - one.cutter));
}

// ---- thinned by zoom

// places of the picture within which a path may lie beside its points that are left out
const NEAR = 0.1;

// adds a run to the pen's path, without the points that a straight line passes near by; tells how many it drew
function trace(pen, start, end) {
  let x = across(X[start]), y = down(Y[start]), count = 2;
  // the way from x, y to the next points, how far they have come by it, and between which slopes they lie
  let wayX = 0, wayY = 0, far = 0, low = 0, high = 0;
  pen.moveTo(x, y);
  for (let n = start + 1; n <= end; n++) {
    const dx = across(X[n]) - x, dy = down(Y[n]) - y;
    if (far === 0) {
      const long = Math.sqrt(dx * dx + dy * dy);
      if (long < NEAR) continue;
      [wayX, wayY, low, high] = [dx / long, dy / long, -Infinity, Infinity];
    }
    const ahead = dx * wayX + dy * wayY, beside = dx * wayY - dy * wayX;
    if (ahead < far - NEAR || beside < low * ahead || beside > high * ahead) {
      // it turns at the point before, from which this one is looked at again
      n--;
      [x, y, far] = [across(X[n]), down(Y[n]), 0];
      pen.lineTo(x, y);
      count++;
      continue;
    }
    far = Math.max(far, ahead);
    low = Math.max(low, (beside - NEAR) / ahead);
    high = Math.min(high, (beside + NEAR) / ahead);
  }
  // a hole is a dot
  pen.lineTo(across(X[end]) + 0.01, down(Y[end]));
  return count;
}

// strokes runs, some in one path
function* strokes(pen, runs, margin) {
  const seen = bounds();
  let weight = 0;
  pen.beginPath();
  for (let n = 0; n < runs.starts.length; n++) {
    if (!meets(runs.boxes, 4 * n, seen, margin)) continue;
    weight += trace(pen, runs.starts[n], runs.ends[n]) * (2 + pen.lineWidth / 10);
    if (weight < 1000) continue;
    pen.stroke();
    yield weight;
    weight = 0;
    pen.beginPath();
  }
  pen.stroke();
  yield weight;
}

// ---- what stands still

function* still(pen) {
  const seen = bounds();
  pen.fillStyle = "#ffffff";
  pen.fillRect(0, 0, view.width, view.height);
  grid(pen, seen);
  outlineParts(pen, "boss", true);
  if (options.strokes) yield* cuts(pen, true);
  for (const kind of ["boss", "bore", "edge"]) outlineParts(pen, kind, false);
  if (options.surfaces) yield* figures(pen, seen);
  if (options.rapids) yield* rapidMoves(pen, seen);
  yield* cuts(pen, false);
  yield* arrows(pen, seen);
  yield* marks(pen, seen);
  if (options.names && options.surfaces) yield* names(pen, seen);
  numbers(pen, seen);
}

function* cuts(pen, isWide) {
  pen.lineCap = pen.lineJoin = "round";
  for (const layer of layers) {
    const wide = layer.cutter * view.scale;
    pen.strokeStyle = isWide && wide >= 2.4 ? strokeColour(layer.z) : lineColour(layer.z);
    pen.lineWidth = isWide ? Math.max(wide, 2.4) : 1.2;
    yield* strokes(pen, layer, layer.cutter / 2 + 2 / view.scale);
  }
}

// rapid moves in dashes, of which those out of view are left out
function* rapidMoves(pen, seen) {
  pen.setLineDash([5, 4]);
  for (const kind of [RAPID, LOW]) {
    pen.strokeStyle = kind === LOW ? RED : GREY;
    pen.lineWidth = kind === LOW ? 2 : 1.2;
    let weight = 0;
    pen.beginPath();
    for (let motion = 0; motion < motions; motion++) {
      const n = rows.first[motion];
      if (kinds[n] !== kind || !meets(boxes, 4 * motion, seen, 0) || (n === 0 && !data.hasOrigin)) continue;
      weight += dashes(pen, n, seen);
      if (weight < 1000) continue;
      pen.stroke();
      yield weight;
      weight = 0;
      pen.beginPath();
    }
    pen.stroke();
    yield weight;
  }
  pen.setLineDash([]);
}

function dashes(pen, n, seen) {
  const [dx, dy] = [X[n + 1] - X[n], Y[n + 1] - Y[n]];
  const shares = sharesWithin(X[n], Y[n], dx, dy, seen, 0, 1), long = Math.hypot(dx, dy) * view.scale;
  if (!shares || !long) return 1;
  // from where a dash of the whole move begins
  const first = (Math.floor((shares[0] * long) / 9) * 9) / long, last = shares[1];
  pen.moveTo(across(X[n] + dx * first), down(Y[n] + dy * first));
  pen.lineTo(across(X[n] + dx * last), down(Y[n] + dy * last));
  return 6 + ((last - first) * long) / 3;
}

function* figures(pen, seen) {
  for (const [list, colour, dash] of [[data.figures, "#b0b0b0", [2, 3]], [data.surfaces, "#8c8c8c", []]]) {
    pen.strokeStyle = colour;
    pen.lineWidth = 1;
    pen.setLineDash(dash);
    for (const figure of list) {
      if (list === data.figures && figure[0] === "circle" && figure[5].every((name) => inOutline.has(name))) continue;
      figurePath(pen, figure, seen);
      yield 20;
    }
  }
  pen.setLineDash([]);
}

function figurePath(pen, [kind, x, y, third, fourth], seen) {
  pen.beginPath();
  if (kind === "circle") {
    if (!meets([x, y, x, y], 0, seen, third)) return;
    pen.arc(across(x), down(y), third * view.scale, 0, 7);
  } else if (kind === "line") {
    const ends = within(x, y, third, fourth, seen);
    if (!ends) return;
    pen.moveTo(across(ends[0][0]), down(ends[0][1]));
    pen.lineTo(across(ends[1][0]), down(ends[1][1]));
  } else {
    const [u, v] = [across(x), down(y)];
    pen.moveTo(u - 4, v);
    pen.lineTo(u + 4, v);
    pen.moveTo(u, v - 4);
    pen.lineTo(u, v + 4);
  }
  pen.stroke();
}

// the shares of the way from a place at which a line comes into a rectangle and leaves it, or nothing
function sharesWithin(x, y, dx, dy, [left, low, right, high], first = -Infinity, last = Infinity) {
  for (const [at, way, least, most] of [[x, dx, left, right], [y, dy, low, high]]) {
    if (way === 0) {
      if (at < least || at > most) return null;
      continue;
    }
    const [one, two] = [(least - at) / way, (most - at) / way];
    first = Math.max(first, Math.min(one, two));
    last = Math.min(last, Math.max(one, two));
  }
  return first < last ? [first, last] : null;
}

// the two points at which a line leaves a rectangle, or nothing
function within(x, y, dx, dy, seen) {
  return sharesWithin(x, y, dx, dy, seen)?.map((share) => [x + dx * share, y + dy * share]);
}

function outlineParts(pen, wanted, isFilled) {
  data.outline.forEach(([kind, numbers], n) => {
    if (kind !== wanted) return;
    const isLit = data.fault.part === n + 1;
    pen.beginPath();
    if (kind === "edge") {
      pen.moveTo(across(numbers[0]), down(numbers[1]));
      pen.lineTo(across(numbers[2]), down(numbers[3]));
    } else pen.arc(across(numbers[0]), down(numbers[1]), numbers[2] * view.scale, 0, 7);
    pen.fillStyle = isLit ? "#ffb3b3" : TAN;
    pen.strokeStyle = isLit ? RED : kind === "edge" ? "#222222" : BROWN;
    pen.lineWidth = isLit ? 5 : kind === "boss" ? 1.5 : 3;
    if (isFilled) pen.fill();
    else pen.stroke();
  });
}

function stepFor(least) {
  let step = 1;
  while (step * view.scale < least) step = String(step)[0] === "2" ? (step * 5) / 2 : step * 2;
  return step;
}

function ticks(low, high, step) {
  const found = [];
  for (let n = Math.ceil(low / step); n * step <= high; n++) found.push(n * step);
  return found;
}

function grid(pen, seen) {
  pen.strokeStyle = "#e8e8e8";
  pen.lineWidth = 1;
  pen.beginPath();
  for (const x of ticks(seen[0], seen[2], stepFor(64))) {
    pen.moveTo(across(x), 0);
    pen.lineTo(across(x), view.height);
  }
  for (const y of ticks(seen[1], seen[3], stepFor(64))) {
    pen.moveTo(0, down(y));
    pen.lineTo(view.width, down(y));
  }
  pen.stroke();
}

function numbers(pen, seen) {
  for (const x of ticks(seen[0], seen[2], stepFor(64))) if (across(x) > 60) label(pen, short(x), across(x), view.height - 5, "center", "#555555");
  for (const y of ticks(seen[1], seen[3], stepFor(64))) if (down(y) < view.height - 24) label(pen, short(y), 4, down(y) - 4, "left", "#555555");
}

function label(pen, words, x, y, align = "left", colour = "#222222") {
  pen.font = FONT;
  pen.textAlign = align;
  pen.lineJoin = "round";
  pen.strokeStyle = "rgba(255,255,255,.85)";
  pen.lineWidth = 3;
  pen.strokeText(words, x, y);
  pen.fillStyle = colour;
  pen.fillText(words, x, y);
}

// names beside their figures, where there is room: of a circle by its rim, of a line by where it leaves the view
function* names(pen, seen) {
  const taken = [];
  pen.font = FONT;
  yield* outlineNames(pen, taken);
  for (const [kind, x, y, third, fourth, known] of [...data.surfaces, ...data.figures].slice(0, 400)) {
    const words = known.filter((name) => !inOutline.has(name)).join(", ");
    // a circle that is a dot needs none
    if (!words || (kind === "circle" && third * view.scale < 8)) continue;
    const wide = pen.measureText(words).width;
    const spot = spotsOf(kind, x, y, third, fourth, seen).find(([u, v]) => {
      if (u < 34 || u + wide > view.width - 4 || v < 14 || v > view.height - 22) return false;
      return taken.every(([left, top, right, bottom]) => u > right || u + wide < left || v - 12 > bottom || v < top);
    });
    yield 10;
    if (!spot) continue;
    taken.push([spot[0] - 4, spot[1] - 14, spot[0] + wide + 4, spot[1] + 3]);
    label(pen, words, ...spot, "left", "#5a4a00");
    yield 100;
  }
}

// names that the outline has; its parts have them
const inOutline = new Set(data.outline.flatMap(([, , words]) => words.split(" ")));

function* outlineNames(pen, taken) {
  for (const [kind, numbers, words] of data.outline) {
    const isEdge = kind === "edge";
    const x = isEdge ? (numbers[0] + numbers[2]) / 2 : numbers[0];
    const y = isEdge ? (numbers[1] + numbers[3]) / 2 : numbers[1] + (kind === "bore" ? numbers[2] : 0);
    const text = `${kind} ${words}`, wide = pen.measureText(text).width;
    taken.push([across(x) - wide / 2, down(y) - 22, across(x) + wide / 2, down(y) - 4]);
    label(pen, text, across(x), down(y) - 8, "center", BROWN);
    yield 100;
  }
}

function spotsOf(kind, x, y, third, fourth, seen) {
  if (kind === "point") return [[across(x) + 6, down(y) - 6], [across(x) + 6, down(y) + 14]];
  if (kind === "circle")
    return [0.8, 2.4, -0.8, -2.4, 0.2, 1.6, 3, -1.6].map((turn) => [across(x + third * Math.cos(turn)) + 5, down(y + third * Math.sin(turn)) - 4]);
  const ends = within(x, y, third, fourth, seen);
  if (!ends) return [];
  const [one, two] = ends.map(([u, v]) => [across(u), down(v)]);
  return [0.93, 0.06, 0.85, 0.14, 0.7, 0.3, 0.5].map((share) => [one[0] + (two[0] - one[0]) * share + 5, one[1] + (two[1] - one[1]) * share - 5]);
}

// ---- arrows and marks

function* arrows(pen, seen) {
  const placed = new Set();
  let since = 60;
  const step = Math.max(1, Math.floor(motions / 20000));
  // of passes on one path the last is the deepest as a rule
  for (let motion = motions - 1; motion >= 0; motion -= step) {
    if (!meets(boxes, 4 * motion, seen, 0)) continue;
    let u = across(X[rows.first[motion]]), v = down(Y[rows.first[motion]]);
    for (let n = rows.first[motion]; n < endOf(motion); n++) {
      const x = u, y = v;
      u = across(X[n + 1]);
      v = down(Y[n + 1]);
      const long = Math.sqrt((u - x) ** 2 + (v - y) ** 2);
      if (long === 0 || (kinds[n] !== CUT && !options.rapids) || (n === 0 && !data.hasOrigin)) continue;
      since += long;
      if (since < 110 && long < 44) continue;
      since = 0;
      arrow(pen, (x + u) / 2, (y + v) / 2, Math.atan2(v - y, u - x), n, placed);
      yield 15;
      if (placed.size > 1500) return;
    }
    yield (endOf(motion) - rows.first[motion]) / 20;
  }
}

function arrow(pen, x, y, angle, segment, placed) {
  if (x < 0 || y < 0 || x > view.width || y > view.height) return;
  const key = `${Math.round(x / 14)} ${Math.round(y / 14)} ${Math.round(angle)}`;
  if (placed.has(key)) return;
  placed.add(key);
  const size = kinds[segment] === CUT ? 6 : 4.5;
  pen.fillStyle = kinds[segment] === CUT ? lineColour(Math.min(Z[segment], Z[segment + 1])) : kinds[segment] === LOW ? RED : GREY;
  pen.beginPath();
  for (const [along_, beside] of [[size, 0], [-size * 0.8, size * 0.62], [-size * 0.8, -size * 0.62]])
    pen.lineTo(x + along_ * Math.cos(angle) - beside * Math.sin(angle), y + along_ * Math.sin(angle) + beside * Math.cos(angle));
  pen.fill();
}

function circleAt(pen, x, y, radius, colour, width) {
  pen.beginPath();
  pen.arc(x, y, radius, 0, 7);
  if (width) {
    pen.strokeStyle = colour;
    pen.lineWidth = width;
    pen.stroke();
  } else {
    pen.fillStyle = colour;
    pen.fill();
  }
}

function* marks(pen, seen) {
  const inView = ([x, y]) => x >= seen[0] && x <= seen[2] && y >= seen[1] && y <= seen[3];
  const plunges = data.marks.plunges.filter(inView);
  for (const [x, y, z] of plunges) {
    circleAt(pen, across(x), down(y), plunges.length > 300 ? 1.2 : 3.2, lineColour(z));
    yield 10;
  }
  for (const [x, y, z] of data.marks.holes.filter(inView)) {
    circleAt(pen, across(x), down(y), 6, lineColour(z), 2);
    circleAt(pen, across(x), down(y), 1.6, lineColour(z));
    yield 40;
  }
  for (const [x, y] of data.marks.drops.filter(inView)) {
    pen.strokeStyle = RED;
    pen.lineWidth = 2;
    pen.stroke(new Path2D(`M${across(x)} ${down(y) + 9}l-8 -14h16z`));
    yield 40;
  }
  if (data.hasMoves) startAndEnd(pen);
}

function startAndEnd(pen) {
  if (data.hasOrigin) {
    pen.strokeStyle = "#555555";
    pen.lineWidth = 1.6;
    pen.strokeRect(across(X[0]) - 5, down(Y[0]) - 5, 10, 10);
  }
  circleAt(pen, across(X[1]), down(Y[1]), 9, GREEN, 2.2);
  const [x, y] = [across(X[segments]), down(Y[segments])];
  pen.strokeStyle = "#c4161c";
  pen.lineWidth = 2.2;
  pen.stroke(new Path2D(`M${x - 6} ${y - 6}l12 12m0 -12l-12 12`));
}

// ---- what is lit

function* lit(pen, runs, shapes) {
  pen.lineCap = pen.lineJoin = "round";
  pen.strokeStyle = LIT;
  pen.lineWidth = 4;
  for (const figure of shapes) {
    figurePath(pen, figure, bounds());
    yield 20;
  }
  yield* strokes(pen, runs, 4 / view.scale);
}

// ---- the side view: heights of cuts, by the plan's scale in x

const side = { isShown: levels.length > 1, low: 0, high: 1, steps: [], bars: [] };
if (side.isShown) {
  const seen = new Set();
  let [low, high] = [Infinity, -Infinity];
  for (let n = 0; n < segments; n++) {
    if (n === 0 && !data.hasOrigin) continue;
    if (kinds[n] === CUT) [low, high] = [Math.min(low, Z[n], Z[n + 1]), Math.max(high, Z[n], Z[n + 1])];
    const isLevelCut = kinds[n] === CUT && Z[n] === Z[n + 1];
    const key = isLevelCut || side.steps.length > 4000 ? "" : `${X[n]} ${Z[n]} ${X[n + 1]} ${Z[n + 1]}`;
    if (key && !seen.has(key)) {
      seen.add(key);
      side.steps.push(n);
    }
  }
  [side.low, side.high] = [low, high];
  for (const layer of layers) {
    const half = layer.cutter / 2;
    const spans = layer.starts.map((start, n) => [layer.boxes[4 * n] - half, layer.boxes[4 * n + 2] + half]).sort((one, two) => one[0] - two[0]);
    const joined = [];
    for (const [left, right] of spans) {
      if (joined.length && left <= joined.at(-1)[1]) joined.at(-1)[1] = Math.max(joined.at(-1)[1], right);
      else joined.push([left, right]);
    }
    side.bars.push({ z: layer.z, spans: joined });
  }
}

const sizeOfSide = () => [front.width / view.ratio, front.height / view.ratio];
const shownLevels = () => (hasShades ? levels : [levels[0], levels.at(-1)]);

// where a height is in the side view
function placeOf(z) {
  const [, height] = sizeOfSide();
  return height - 14 - ((z - side.low) * (height - 34)) / (side.high - side.low || 1);
}

function* sideBars(pen) {
  const [width, height] = sizeOfSide();
  pen.fillStyle = "#ffffff";
  pen.fillRect(0, 0, width, height);
  pen.strokeStyle = "#e8e8e8";
  pen.lineWidth = 1;
  for (const z of shownLevels()) pen.strokeRect(-1, placeOf(z), width + 2, 0);
  for (const { z, spans } of side.bars) {
    for (const [left, right] of spans) {
      const x = across(left), wide = Math.max(2, across(right) - x);
      pen.fillStyle = strokeColour(z);
      pen.fillRect(x, placeOf(z) - 7, wide, 7);
      pen.fillStyle = lineColour(z);
      pen.fillRect(x, placeOf(z) - 1, wide, 1.6);
      yield 10;
    }
  }
  for (const n of side.steps) {
    if (kinds[n] !== CUT && !options.rapids) continue;
    pen.setLineDash(kinds[n] === CUT ? [] : [5, 4]);
    pen.strokeStyle = kinds[n] === CUT ? lineColour(levels.at(-1)) : kinds[n] === LOW ? RED : GREY;
    pen.lineWidth = 1.2;
    pen.beginPath();
    pen.moveTo(across(X[n]), placeOf(Z[n]));
    pen.lineTo(across(X[n + 1]), placeOf(Z[n + 1]));
    pen.stroke();
    yield 20;
  }
}

// the tool before the side view, and the heights
function drawInFront(tool) {
  const pen = frontOver.getContext("2d"), [width, height] = sizeOfSide();
  pen.setTransform(view.ratio, 0, 0, view.ratio, 0, 0);
  pen.clearRect(0, 0, width, height);
  if (tool) {
    const half = Math.max(2, (tool.cutter * view.scale) / 2), bottom = placeOf(tool.z);
    pen.fillStyle = "rgba(26,127,55,.35)";
    pen.fillRect(across(tool.x) - half, -1, 2 * half, bottom + 1);
    pen.strokeStyle = GREEN;
    pen.lineWidth = 1.2;
    pen.strokeRect(across(tool.x) - half, -2, 2 * half, bottom + 2);
  }
  let last = Infinity;
  for (const z of [...shownLevels()].reverse()) {
    if (last - placeOf(z) < 13) continue;
    last = placeOf(z);
    label(pen, `z ${short(z)}`, 4, last - 3, "left", "#555555");
  }
  label(pen, "seen from the front", width - 6, 13, "right", "#777777");
}
