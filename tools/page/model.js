// What the page holds: the path as columns of numbers, and what is asked of it.

const data = JSON.parse(document.getElementById("data").textContent);

function bytesOf(text) {
  const raw = atob(text);
  const bytes = new Uint8Array(raw.length);
  for (let n = 0; n < raw.length; n++) bytes[n] = raw.charCodeAt(n);
  return bytes;
}

function numbersOf(text) {
  const view = new DataView(bytesOf(text).buffer);
  const numbers = new Int32Array(view.byteLength / 4);
  for (let n = 0; n < numbers.length; n++) numbers[n] = view.getInt32(4 * n, true);
  return numbers;
}

const CUT = 0, RAPID = 1, LOW = 2;
const flat = numbersOf(data.points);
const points = flat.length / 3;
// a segment n runs from point n to point n + 1
const segments = points - 1;
const X = new Float64Array(points), Y = new Float64Array(points), Z = new Float64Array(points);
for (let n = 0; n < points; n++) [X[n], Y[n], Z[n]] = [flat[3 * n], flat[3 * n + 1], flat[3 * n + 2]];
const kinds = bytesOf(data.kinds);
const rows = Object.fromEntries(Object.entries(data.rows).map(([name, text]) => [name, numbersOf(text)]));
const motions = rows.first.length;

function endOf(motion) {
  return motion + 1 < motions ? rows.first[motion + 1] : segments;
}

// the greatest n below the end of a row of rising numbers that is at most a value
function lastAtMost(row, value, end = row.length) {
  let low = -1, high = end;
  while (high - low > 1) {
    const middle = (low + high) >> 1;
    if (row[middle] <= value) low = middle;
    else high = middle;
  }
  return low;
}

const motionOf = (segment) => lastAtMost(rows.first, segment);

// how long the path is up to each point; the tool goes straight up and down, too
const along = new Float64Array(points);
for (let n = 1; n < points; n++) along[n] = along[n - 1] + Math.hypot(X[n] - X[n - 1], Y[n] - Y[n - 1], Z[n] - Z[n - 1]);
const whole = along[points - 1];

const motionsOfLine = new Map();
for (let n = 0; n < motions; n++) {
  const line = rows.line[n];
  if (!motionsOfLine.has(line)) motionsOfLine.set(line, []);
  motionsOfLine.get(line).push(n);
}

// the rectangle about the points from start to end
function boxOf(start, end) {
  let [left, low, right, high] = [Infinity, Infinity, -Infinity, -Infinity];
  for (let n = start; n <= end; n++) {
    if (X[n] < left) left = X[n];
    if (X[n] > right) right = X[n];
    if (Y[n] < low) low = Y[n];
    if (Y[n] > high) high = Y[n];
  }
  return [left, low, right, high];
}

// the rectangle of each motion, to pass over what is not in view
const boxes = new Float64Array(4 * motions);
for (let n = 0; n < motions; n++) boxes.set(boxOf(rows.first[n], endOf(n)), 4 * n);

// ---- lengths and colours

const shown = (units) => (units / data.scale).toFixed(data.scale === 100000 ? 5 : 4);

function short(units) {
  const text = String(Number((units / data.scale).toFixed(5)));
  return text === "-0" ? "0" : text;
}

const levels = data.levels;
const hasShades = levels.length <= data.colours.most;

// 0 for the highest cut, 1 for the deepest
function shareOf(z) {
  if (levels.length < 2) return 0.5;
  const within = (share) => Math.min(1, Math.max(0, share));
  if (!hasShades) return within((levels[0] - z) / (levels[0] - levels.at(-1)));
  for (let rank = 0; rank + 1 < levels.length; rank++)
    if (z >= levels[rank + 1]) return within(rank + (levels[rank] - z) / (levels[rank] - levels[rank + 1])) / (levels.length - 1);
  return 1;
}

function mixed([first, last], share) {
  return `rgb(${first.map((from, n) => Math.round(from + (last[n] - from) * share)).join(",")})`;
}

const strokeColour = (z) => mixed(data.colours.stroke, shareOf(z));
const lineColour = (z) => mixed(data.colours.line, shareOf(z));
const cutterOf = (motion) => data.settings[rows.setting[motion]].cutter;

// ---- acts

const noteActs = data.notes.map((note) => note[0]);

// the act of a number: a note, or the motion and the last segment to which it leads
function actAt(number) {
  const note = lastAtMost(noteActs, number);
  if (note >= 0 && noteActs[note] === number) return { note: data.notes[note] };
  const motion = lastAtMost(rows.act, number);
  const segment = rows.arc[motion] ? endOf(motion) - 1 : rows.first[motion] + number - rows.act[motion];
  return { motion, segment };
}

function actOfSegment(segment) {
  const motion = motionOf(segment);
  return rows.act[motion] + (rows.arc[motion] ? 0 : segment - rows.first[motion]);
}

// the segment that ends where the tool is behind an act, -1 before all moves
function lastSegmentAt(number) {
  const found = actAt(number);
  if (!found.note) return found.segment;
  const motion = lastAtMost(rows.act, number);
  return motion < 0 ? -1 : endOf(motion) - 1;
}

// an act in the words of decode
function wordsOf(number) {
  const found = actAt(number);
  if (found.note) return found.note[1];
  const { motion, segment } = found;
  const place = [X[segment + 1], Y[segment + 1], Z[segment + 1]].join(" ");
  if (rows.rapid[motion]) return `RAPID ${place}`;
  const feed = data.settings[rows.setting[motion]].feed ?? 0;
  if (!rows.arc[motion]) return `CUT ${place} FEED ${feed}`;
  const [, x, y] = data.surfaces[rows.drive[motion]];
  return `ARC ${turnOf(motion)} ${place} CENTRE ${x} ${y} FEED ${feed}`;
}

function turnOf(motion) {
  const [, x, y] = data.surfaces[rows.drive[motion]];
  const at = rows.first[motion];
  return (X[at] - x) * (Y[at + 1] - y) - (Y[at] - y) * (X[at + 1] - x) > 0 ? "CCW" : "CW";
}
