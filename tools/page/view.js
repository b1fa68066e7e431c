// The page: what is lit, how far the tool has come, and what the reader does.

const at = (name) => document.getElementById(name);
const state = { segment: -1, act: 1, share: 1, isRunning: false };

// ---- the answer

function showAnswer() {
  const { answer } = data;
  document.querySelector("header").className = answer.good ? "good" : "bad";
  at("line").textContent = answer.line;
  at("files").textContent = answer.files.join("  ");
  at("told").textContent = [...answer.shown, ...(data.fault.says ?? [])].join("\n");
  at("explained").textContent = answer.told.join("\n");
  at("manual").hidden = !answer.told.length;
  at("manual").open = answer.told.join("").length < 400;
  at("promise").hidden = !answer.says.length;
  at("promise").querySelector("summary").textContent = answer.good ? "what this promises" : "what certify promises of these files, which guard does not let pass";
  const says = answer.clear ? [...answer.says, "Every point of every segment is clear of every part of the outline."] : answer.says;
  for (const sentence of says) at("says").append(element("li", sentence));
  at("silent").textContent = answer.silent.length ? `It does not speak of: ${answer.silent.join("; ").toLowerCase()}.` : "";
}

function element(kind, words, className = "") {
  const made = document.createElement(kind);
  made.textContent = words;
  if (className) made.className = className;
  return made;
}

// ---- the part

const listed = [], BLOCK = 100;

// in blocks, of which those out of view are not laid out
function showPart() {
  data.lines.forEach((text, n) => {
    const item = document.createElement("li");
    item.id = `l${n + 1}`;
    item.append(element("i", String(n + 1)), element("span", text || " "));
    if (motionsOfLine.has(n + 1)) item.className = "moves";
    if (n % BLOCK === 0) at("lines").append(element("ol", ""));
    at("lines").lastChild.append(item);
    listed.push(item);
  });
  for (const block of at("lines").children) block.style.containIntrinsicHeight = `auto ${1.45 * block.children.length}em`;
  at("lines").addEventListener("click", (event) => {
    const item = event.target.closest("li");
    if (item) chooseLine(Number(item.id.slice(1)), true);
  });
}

const itemOf = (line) => listed[line - 1];

const marked = {};

function markLine(name, line) {
  marked[name]?.classList.remove(name);
  marked[name] = itemOf(line);
  marked[name]?.classList.add(name);
}

function bringIntoView(line) {
  const [item, part] = [itemOf(line), at("part")].map((one) => one?.getBoundingClientRect());
  if (item) at("part").scrollTop += item.top - part.top - part.height / 2;
}

// ---- choices

function chooseLine(line, isMoving) {
  const found = motionsOfLine.get(line) ?? [], shapes = figuresOf(line);
  state.segment = -1;
  light(runsOf(found), shapes);
  markLine("lit", line);
  const count = found.reduce((sum, motion) => sum + endOf(motion) - rows.first[motion], 0);
  const named = shapes.length ? `line ${line}: a figure` : `line ${line}: no segments`;
  at("chosen").textContent = count ? `line ${line}: ${count} segment${count > 1 ? "s" : ""}, ${recordsOf(found)}` : named;
  if (isMoving && count) showWhole(found);
}

function recordsOf(found) {
  const numbers = found.slice(0, 6).map((motion) => rows.record[motion]);
  return `record${found.length > 1 ? "s" : ""} ${numbers.join(", ")}${found.length > 6 ? ", .." : ""}`;
}

// the figures that a line's definition names
function figuresOf(line) {
  const name = /^\s*(?:\w+\))?\s*([A-Za-z]\w*)\s*=\s*(POINT|LINE|CIRCLE)\b/i.exec(data.lines[line - 1] ?? "")?.[1].toUpperCase();
  return name ? [...data.surfaces, ...data.figures].filter((figure) => figure[5].includes(name)) : [];
}

function chooseSegment(segment) {
  const motion = motionOf(segment);
  chooseLine(rows.line[motion], false);
  state.segment = segment;
  const leg = rows.leg[motion] ? `, motion ${rows.leg[motion]} segment ${segment - rows.first[motion] + 1}` : "";
  at("chosen").textContent += `; act ${actOfSegment(segment)}${leg}`;
  bringIntoView(rows.line[motion]);
  goTo(actOfSegment(segment), 1, segment);
}

// the segments within some places of a point of the plan, the latest first
function segmentsAt(px, py) {
  const reach = 7, found = [];
  const [x, y, units] = [unitsX(px), unitsY(py), reach / view.scale];
  const seen = [x - units, y - units, x + units, y + units];
  for (let motion = 0; motion < motions; motion++) {
    if (!meets(boxes, 4 * motion, seen, 0)) continue;
    for (let n = rows.first[motion]; n < endOf(motion); n++) {
      if (n === 0 && !data.hasOrigin) continue;
      const distance = distanceTo(x, y, n);
      if (distance < units) found.push([distance, n]);
    }
  }
  const least = Math.min(...found.map(([distance]) => distance));
  // as near as can be told apart; a cut before a rapid move
  return found.filter(([distance]) => distance <= least + 2 / view.scale).map(([, n]) => n).sort((one, two) => kinds[one] - kinds[two] || two - one);
}

function distanceTo(x, y, n) {
  const [dx, dy] = [X[n + 1] - X[n], Y[n + 1] - Y[n]];
  const long = dx * dx + dy * dy;
  const share = long ? Math.min(1, Math.max(0, ((x - X[n]) * dx + (y - Y[n]) * dy) / long)) : 0;
  return Math.hypot(X[n] + dx * share - x, Y[n] + dy * share - y);
}

let chosenAt = [], turn = 0;

function click(px, py) {
  const found = segmentsAt(px, py);
  if (!found.length) return;
  // a second click on the same place takes the next of those that lie there
  turn = found.join() === chosenAt.join() ? turn + 1 : 0;
  chosenAt = found;
  chooseSegment(found[turn % found.length]);
}

// ---- the tool

function goTo(act, share = 1, segment = lastSegmentAt(act)) {
  Object.assign(state, { act: Math.min(Math.max(1, act), data.acts), share, run: segment });
  at("slider").value = whole ? Math.round((100000 * lengthSoFar()) / whole) : 0;
  showReading();
}

const lengthSoFar = () => (state.run < 0 ? 0 : along[state.run] + (along[state.run + 1] - along[state.run]) * state.share);

function slide(length) {
  if (!segments) return;
  const segment = Math.max(0, Math.min(segments - 1, lastAtMost(along, length)));
  const long = along[segment + 1] - along[segment];
  Object.assign(state, { run: segment, share: long ? Math.min(1, (length - along[segment]) / long) : 1, act: actOfSegment(segment) });
  if (length >= whole) goTo(data.acts);
  else showReading();
}

function toolAt() {
  if (!data.hasMoves) return null;
  const n = state.run;
  const cutter = n < 0 ? 0 : cutterOf(motionOf(n));
  if (n < 0) return { x: X[0], y: Y[0], z: Z[0], cutter };
  const share = n === 0 && !data.hasOrigin ? 1 : state.share;
  return { x: X[n] + (X[n + 1] - X[n]) * share, y: Y[n] + (Y[n + 1] - Y[n]) * share, z: Z[n] + (Z[n + 1] - Z[n]) * share, cutter };
}

function showReading() {
  const found = actAt(state.act);
  const settings = data.settings[found.note ? found.note[3] : rows.setting[found.motion]];
  const tool = toolAt();
  at("act").textContent = `${state.act} of ${data.acts}: ${wordsOf(state.act)}`;
  at("position").textContent = tool ? `x ${shown(tool.x)} y ${shown(tool.y)} z ${shown(tool.z)}` : "none";
  const isRapid = !found.note && rows.rapid[found.motion];
  at("feed").textContent = isRapid ? "rapid" : settings.feed === null ? "not given" : (settings.feed / 10).toFixed(1);
  at("spindle").textContent = settings.spindle;
  at("tool").textContent = settings.tool || "not given";
  at("cutter").textContent = short(settings.cutter);
  at("coolant").textContent = settings.coolant;
  const line = found.note ? found.note[4] : rows.line[found.motion];
  at("source").textContent = line || "none";
  markLine("runs", line);
  touch();
}

// ---- views

function showBox([left, low, right, high], least) {
  const wide = Math.max(right - left, least), tall = Math.max(high - low, least);
  view.scale = Math.min((view.width - 70) / wide, (view.height - 60) / tall);
  [view.x, view.y] = [(left + right) / 2, (low + high) / 2];
  touch();
}

function wholeBox() {
  let [left, low, right, high] = [Infinity, Infinity, -Infinity, -Infinity];
  const widen = (x, y, by) => ([left, low, right, high] = [Math.min(left, x - by), Math.min(low, y - by), Math.max(right, x + by), Math.max(high, y + by)]);
  for (let motion = 0; motion < motions; motion++) {
    const half = kinds[rows.first[motion]] === CUT ? cutterOf(motion) / 2 : 0;
    for (let n = rows.first[motion]; n < endOf(motion); n++) {
      // where a first rapid move comes from may be far away
      if (n > 0 || kinds[0] === CUT) widen(X[n], Y[n], half);
      widen(X[n + 1], Y[n + 1], half);
    }
  }
  for (const [kind, numbers] of data.outline) {
    if (kind === "edge") for (const n of [0, 2]) widen(numbers[n], numbers[n + 1], 0);
    else widen(numbers[0], numbers[1], numbers[2]);
  }
  return left > right ? [0, 0, data.scale, data.scale] : [left, low, right, high];
}

const showAll = () => showBox(wholeBox(), data.scale / 100);

// moves the view only where a line's segments are not in it
function showWhole(found) {
  const seen = bounds();
  if (found.some((motion) => meets(boxes, 4 * motion, seen, 0))) return;
  const box = [Infinity, Infinity, -Infinity, -Infinity];
  for (const motion of found)
    for (const n of [0, 1]) [box[n], box[n + 2]] = [Math.min(box[n], boxes[4 * motion + n]), Math.max(box[n + 2], boxes[4 * motion + n + 2])];
  showBox(box, 0.2 * data.scale);
}

function zoom(by, px = view.width / 2, py = view.height / 2) {
  const [x, y] = [unitsX(px), unitsY(py)];
  view.scale = Math.min(20, Math.max(1e-7, view.scale * by));
  [view.x, view.y] = [x - (px - view.width / 2) / view.scale, y + (py - view.height / 2) / view.scale];
  touch();
}

// ---- what is wrong

function showFault() {
  const { fault } = data;
  if (fault.line) {
    itemOf(fault.line)?.classList.add("wrong");
    bringIntoView(fault.line);
  }
  const box = faultBox();
  at("where").hidden = !box;
  if (box) showBox(...box);
  if (fault.segment !== undefined) {
    chooseSegment(fault.segment);
    goTo(state.act, fault.share, fault.segment);
  } else if (fault.record !== undefined || fault.act) {
    chooseLine(fault.line, false);
    const motion = rows.record.indexOf(fault.record);
    const act = fault.act ?? (motion < 0 ? 1 : rows.act[motion]);
    if (act <= data.acts) goTo(act);
  } else if (fault.refused) goTo(data.acts);
}

function faultBox() {
  const { fault } = data, about = 0.4 * data.scale;
  if (fault.spot) {
    const [x, y] = fault.spot, reach = Math.max(about, 2 * cutterOf(motionOf(fault.segment)));
    return [[x - reach, y - reach, x + reach, y + reach], 0];
  }
  if (fault.ends) {
    const places = [...fault.ends, fault.before].filter(Boolean);
    const ends = [0, 1, 0, 1].map((axis, n) => Math[n < 2 ? "min" : "max"](...places.map((place) => place[axis])));
    const margin = about / 2 + 0.15 * Math.max(ends[2] - ends[0], ends[3] - ends[1]);
    return places.length ? [ends.map((end, n) => end + (n < 2 ? -margin : margin)), about] : null;
  }
  if (fault.refused) {
    const [left, low, right, high] = wholeBox(), reach = Math.max(about, 0.3 * (right - left), 0.3 * (high - low));
    return [[X[segments] - reach, Y[segments] - reach, X[segments] + reach, Y[segments] + reach], 0];
  }
  const motion = fault.record === undefined ? -1 : rows.record.indexOf(fault.record);
  return motion < 0 ? null : [[...boxes.subarray(4 * motion, 4 * motion + 4)], about];
}

// ---- what moves

function drawOver() {
  const pen = over.getContext("2d"), tool = toolAt();
  pen.setTransform(view.ratio, 0, 0, view.ratio, 0, 0);
  pen.clearRect(0, 0, view.width, view.height);
  pen.lineCap = pen.lineJoin = "round";
  if (state.segment >= 0) segmentPath(pen, state.segment, "#d40000", 3);
  if (tool) drawTool(pen, tool);
  drawFault(pen);
  if (side.isShown) drawInFront(tool);
}

function segmentPath(pen, n, colour, width) {
  pen.strokeStyle = colour;
  pen.lineWidth = width;
  pen.beginPath();
  pen.moveTo(across(X[n]), down(Y[n]));
  pen.lineTo(across(X[n + 1]) + 0.01, down(Y[n + 1]));
  pen.stroke();
}

function drawFault(pen) {
  const { fault } = data;
  if (fault.spot) {
    const [x, y] = [across(fault.spot[0]), down(fault.spot[1])];
    circleAt(pen, x, y, 5, RED);
    circleAt(pen, x, y, 13, RED, 2.5);
    const half = (cutterOf(motionOf(fault.segment)) / 2) * view.scale;
    if (half > 14) circleAt(pen, x, y, half, RED, 1.5);
    label(pen, fault.reason, x + 16, y - 16, "left", RED);
  }
  if (fault.ends) drawActs(pen, fault);
  if (fault.refused) {
    const [x, y] = [across(X[segments]), down(Y[segments])];
    circleAt(pen, x, y, 14, RED, 3);
    label(pen, `line ${fault.line} is refused here`, x + 18, y - 14, "left", RED);
  }
}

// both acts, from where the tape is before them
function drawActs(pen, { ends, before }) {
  ends.forEach((end, n) => {
    if (!end) return;
    const colour = n === 0 ? RED : GREEN;
    pen.strokeStyle = colour;
    pen.lineWidth = 2.5;
    pen.setLineDash(n === 0 ? [] : [7, 5]);
    pen.beginPath();
    if (before) pen.moveTo(across(before[0]), down(before[1]));
    pen.lineTo(across(end[0]), down(end[1]));
    pen.stroke();
    pen.setLineDash([]);
    circleAt(pen, across(end[0]), down(end[1]), 6, colour);
    label(pen, n === 0 ? "the tape" : "asked for", across(end[0]) + 10, down(end[1]) + (n === 0 ? 18 : -8), "left", colour);
  });
}

function drawTool(pen, tool) {
  const [x, y] = [across(tool.x), down(tool.y)], radius = Math.max(4, (tool.cutter / 2) * view.scale);
  pen.beginPath();
  pen.arc(x, y, radius, 0, 7);
  pen.fillStyle = "rgba(26,127,55,.22)";
  pen.fill();
  pen.strokeStyle = GREEN;
  pen.lineWidth = 2;
  pen.stroke();
  pen.stroke(new Path2D(`M${x - 5} ${y}h10M${x} ${y - 5}v10`));
}

// ---- the legend

function showLegend() {
  const swatch = (inside) => `<svg width="28" height="14">${inside}</svg>`;
  const line = (colour, width, dash = "") => swatch(`<path d="M0 7h28" stroke="${colour}" stroke-width="${width}" stroke-dasharray="${dash}"/>`);
  const entries = shownLevels().map((z) => [swatch(`<rect x="2" y="1" width="24" height="12" fill="${strokeColour(z)}" stroke="${lineColour(z)}"/>`), `z ${short(z)}`]);
  const sizes = [...new Set(data.settings.map((held) => held.cutter).filter(Boolean))].map(short);
  entries.push(["", `${sizes.length ? `cutter ${sizes.join(", ")}` : "no cutter's diameter is given"}, in ${data.unit}`]);
  entries.push([line(GREY, 1.3, "5 4"), "rapid"]);
  if (kinds.includes(LOW)) entries.push([line(RED, 2, "5 4"), "rapid, down or below the cuts"]);
  entries.push([line("#8c8c8c", 1), "drive and check surfaces"]);
  if (data.figures.length) entries.push([line("#b0b0b0", 1, "2 3"), "other figures"]);
  entries.push([swatch('<rect x="9" y="2" width="10" height="10" fill="none" stroke="#555" stroke-width="1.6"/>'), "FROM"]);
  entries.push([swatch(`<circle cx="14" cy="7" r="6" fill="none" stroke="${GREEN}" stroke-width="2"/>`), "start"]);
  entries.push([swatch('<path d="M9 2l10 10m0 -10l-10 10" stroke="#c4161c" stroke-width="2"/>'), "end"]);
  for (const [picture, words] of entries) {
    const entry = element("span", "");
    entry.innerHTML = picture;
    entry.append(words);
    at("legend").append(entry);
  }
}

// ---- events

function listen() {
  at("fit").onclick = showAll;
  at("larger").onclick = () => zoom(1.6);
  at("smaller").onclick = () => zoom(1 / 1.6);
  at("where").onclick = () => showBox(...faultBox());
  for (const name of ["strokes", "surfaces", "names", "rapids"])
    at(name).onchange = () => {
      options[name] = at(name).checked;
      view.version++;
      touch();
    };
  at("slider").oninput = () => slide((whole * at("slider").value) / 100000);
  at("back").onclick = () => goTo(state.act - 1);
  at("next").onclick = () => goTo(state.act + 1);
  at("play").onclick = () => {
    state.isRunning = !state.isRunning;
    if (state.isRunning && lengthSoFar() >= whole) slide(0);
    at("play").textContent = state.isRunning ? "stop" : "run";
    touch();
  };
  document.addEventListener("keydown", (event) => {
    if (event.target.tagName === "INPUT" || event.ctrlKey || event.altKey || event.metaKey) return;
    if (event.key === "ArrowRight") goTo(state.act + 1);
    else if (event.key === "ArrowLeft") goTo(state.act - 1);
    else return;
    event.preventDefault();
  });
  // drawn at once, as a canvas of another size is empty
  new ResizeObserver(() => {
    resize();
    frame(before);
  }).observe(at("plan"));
  listenToPlan();
}

function listenToPlan() {
  const held = new Map();
  let way = 0, gap = 0;
  const places = () => [...held.values()];
  over.addEventListener("wheel", (event) => {
    event.preventDefault();
    zoom(2 ** (-event.deltaY / (event.deltaMode ? 8 : 260)), event.offsetX, event.offsetY);
  });
  over.addEventListener("pointerdown", (event) => {
    over.setPointerCapture(event.pointerId);
    held.set(event.pointerId, [event.offsetX, event.offsetY]);
    [way, gap] = [0, 0];
  });
  over.addEventListener("pointermove", (event) => {
    const was = held.get(event.pointerId);
    if (!was) return;
    const now = [event.offsetX, event.offsetY];
    held.set(event.pointerId, now);
    way += Math.hypot(now[0] - was[0], now[1] - was[1]) + (held.size > 1 ? 9 : 0);
    if (way < 4) return;
    over.classList.add("drags");
    view.x -= (now[0] - was[0]) / view.scale / held.size;
    view.y += (now[1] - was[1]) / view.scale / held.size;
    touch();
    if (held.size === 2) {
      const [[x, y], [u, v]] = places(), wide = Math.hypot(u - x, v - y);
      if (gap) zoom(wide / gap, (x + u) / 2, (y + v) / 2);
      gap = wide;
    }
  });
  for (const name of ["pointerup", "pointercancel"])
    over.addEventListener(name, (event) => {
      if (name === "pointerup" && held.has(event.pointerId) && way < 4) click(event.offsetX, event.offsetY);
      held.delete(event.pointerId);
      gap = 0;
      over.classList.remove("drags");
    });
}

// all of the path takes about twenty seconds
function runOn(milliseconds) {
  const length = lengthSoFar() + (whole * milliseconds) / 20000;
  at("slider").value = (100000 * length) / whole;
  slide(Math.min(length, whole));
  if (length >= whole) at("play").click();
}

showAnswer();
showPart();
showLegend();
at("side").hidden = !side.isShown;
resize();
showAll();
goTo(1);
listen();
showFault();
