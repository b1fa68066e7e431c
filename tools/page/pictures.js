// Pictures of what stands still. Each is drawn by the processor, a little in each frame, and kept. While the view moves,
// what is kept is shown moved and stretched; a picture that takes more than one frame is drawn anew when the view rests.

// milliseconds: what drawing may take in a frame, and how long a view that rests has not moved
const BUDGET = 8, REST = 150;
// the microseconds of drawing that may be put off until they are painted
const PUT_OFF = 1500;
const NAMED = ["x", "y", "scale", "width", "height", "version"];
const isNow = (one) => Boolean(one) && NAMED.every((name) => one[name] === view[name]);

// what is kept, what is being drawn, and what was kept of the widest view
const pictureOf = (screen, steps) => ({ screen, steps, kept: null, draft: null, widest: null, isSlow: false });
const pictures = { still: pictureOf(base, still) };
if (side.isShown) pictures.side = pictureOf(front, sideBars);
const isSharp = () => Object.values(pictures).every((picture) => isNow(picture.kept));
const isDue = (picture) => !isNow(picture.kept) && (rests || !picture.isSlow || !picture.kept);

function light(runs, shapes) {
  pictures.lit = pictureOf(base, (pen) => lit(pen, runs, shapes));
  touch();
}

function begun({ screen, steps }) {
  const canvas = document.createElement("canvas");
  [canvas.width, canvas.height] = [screen.width, screen.height];
  const pen = canvas.getContext("2d", { willReadFrequently: true });
  pen.setTransform(view.ratio, 0, 0, view.ratio, 0, 0);
  return { ...view, canvas, pen, steps: steps(pen), frames: 0 };
}

// draws on until then, a little at least; true where the draft is whole
function finishes({ pen, steps }, until) {
  for (let putOff = 0; ; ) {
    const { value, done } = steps.next();
    putOff += value;
    if (!done && putOff < PUT_OFF) continue;
    // it is painted where a place is asked for; so the clock sees what that takes
    pen.getImageData(0, 0, 1, 1);
    if (done || performance.now() > until) return done;
    putOff = 0;
  }
}

// draws a picture that is due until then; true where something else is to be shown
function changes(picture, until) {
  if (!isDue(picture)) return false;
  if (!isNow(picture.draft)) {
    // of the first picture, what there is
    if (picture.draft) picture.kept ??= { ...picture.draft, version: -1 };
    picture.draft = begun(picture);
  }
  const { draft } = picture;
  const isWhole = finishes(draft, until);
  draft.frames++;
  picture.isSlow = !isWhole || draft.frames > 1;
  if (isWhole) keep(picture, draft);
  return isWhole || !picture.kept;
}

function keep(picture, draft) {
  [picture.kept, picture.draft] = [draft, null];
  const { widest } = picture;
  if (picture !== pictures.lit && (!widest || widest.version !== draft.version || draft.scale <= widest.scale)) picture.widest = draft;
}

// shows what is kept, and where that leaves some of the screen empty what was kept of the widest view
function show(screen) {
  const pen = screen.getContext("2d", { alpha: false }), all = Object.values(pictures).filter((picture) => picture.screen === screen);
  pen.setTransform(1, 0, 0, 1, 0, 0);
  pen.fillStyle = "#ffffff";
  pen.fillRect(0, 0, screen.width, screen.height);
  for (const { kept, widest } of all) if (widest && !covers(kept, screen)) paste(pen, widest, screen);
  for (const { kept, draft } of all) if (kept ?? draft) paste(pen, kept ?? draft, screen);
}

// where a picture is on the screen: from the left, from the top, how wide, how tall
function rectangleOf({ canvas, x, y, scale, width, height }, screen) {
  const by = view.scale / scale, left = across(x) - (width / 2) * by;
  // the side view has the plan's scale in x alone
  const [top, tall] = screen === front ? [0, 1] : [down(y) - (height / 2) * by, by];
  return [left * view.ratio, top * view.ratio, canvas.width * by, canvas.height * tall].map(Math.round);
}

function covers(one, screen) {
  const [left, top, wide, tall] = rectangleOf(one, screen);
  return left <= 0 && top <= 0 && left + wide >= screen.width && top + tall >= screen.height;
}

function paste(pen, one, screen) {
  pen.drawImage(one.canvas, ...rectangleOf(one, screen));
}

// ---- the view

// as it was shown last, and whether it has not moved for a while
const shownView = {};
let rests = true, timer = 0;

function hasMoved() {
  if (isNow(shownView)) return false;
  Object.assign(shownView, view);
  rests = false;
  clearTimeout(timer);
  timer = setTimeout(comeToRest, REST);
  return true;
}

function comeToRest() {
  rests = true;
  if (!isSharp()) ask();
}

function resize() {
  view.ratio = window.devicePixelRatio || 1;
  [view.width, view.height] = sizeOf(base);
  for (const canvas of [base, over, front, frontOver]) [canvas.width, canvas.height] = sizeOf(canvas).map((long) => long * view.ratio);
  shownView.version = -1;
}

// within its border
function sizeOf(canvas) {
  const { width, height } = canvas.parentElement.getBoundingClientRect();
  return [Math.max(50, width - 2), Math.max(50, height - 2)];
}

// ---- frames, of which each has something to do

let isAsked = false, isTouched = false, frames = 0, before = 0;

function ask() {
  if (!isAsked) requestAnimationFrame(frame);
  isAsked = true;
}

// asks for a frame that shows what is another now
function touch() {
  isTouched = true;
  ask();
}

function frame(now) {
  isAsked = false;
  if (state.isRunning) runOn(Math.min(100, now - before));
  before = now;
  const isMoved = hasMoved(), until = performance.now() + BUDGET, screens = new Set();
  for (const picture of Object.values(pictures)) if (changes(picture, until) || isMoved) screens.add(picture.screen);
  screens.forEach(show);
  if (isTouched || isMoved) drawOver();
  isTouched = false;
  frames++;
  if (Object.values(pictures).some(isDue)) ask();
}
