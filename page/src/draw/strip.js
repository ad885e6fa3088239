// How many items are inside over the whole of a recording, or a stretch of it, as a strip: dark for what surely is, pale for what may be
// more, with the cursor, the line at fault and the one that contradicts it. A click or a key steps there; what is dragged over is shown
// larger, a double click shows all again.

import { capacityIn } from "../text/recorded_lines.js";

const NS = "http://www.w3.org/2000/svg";
const STRIP_WIDE = 1000, STRIP_HIGH = 40; // in its own units
const LEAST_LINES = 20; // lines of a stretch
const DRAGGED = 4; // pixels from which on a press is a drag
const STEPS = 100; // a key moves the cursor by one of this number of parts of what is shown, a page key by a tenth of them

const madeSvg = (name, attributes = {}) => {
  const it = document.createElementNS(NS, name);
  for (const [key, value] of Object.entries(attributes)) it.setAttribute(key, value);
  return it;
};

// The least and the most of each of `count` columns over the lines from `first` to `last`: those that end at one line have what it has.
export function columnsOf(lines, first, last, most, count) {
  const low = new Float64Array(count), high = new Float64Array(count), wide = (last - first + 1) / count;
  for (let i = 0; i < count; i++) {
    const from = Math.floor(first + i * wide), past = Math.min(last + 1, Math.max(from + 1, Math.floor(first + (i + 1) * wide)));
    let least = Infinity, largest = 0;
    for (let line = from; line < past; line++) {
      if (lines.low[line] < least) least = lines.low[line];
      if (lines.high[line] > largest) largest = lines.high[line];
    }
    low[i] = least;
    high[i] = Math.min(largest, most);
  }
  return {low, high};
}

// An area under the numbers of columns, as a path.
function areaOf(numbers, top) {
  const y = it => (STRIP_HIGH - STRIP_HIGH * Math.min(it, top) / top).toFixed(1), wide = STRIP_WIDE / numbers.length;
  const steps = Array.from(numbers, (it, i) => `V${y(it)}H${((i + 1) * wide).toFixed(1)}`);
  return `M0 ${STRIP_HIGH}${steps.join("")}V${STRIP_HIGH}Z`;
}

// A strip in this frame, whose clicks step to a line. The result has `show`, for a recording with the line of the cursor and those of
// its fault, or for none.
export function stripIn(frame, stepToLine) {
  const svg = madeSvg("svg", {viewBox: `0 0 ${STRIP_WIDE} ${STRIP_HIGH}`, preserveAspectRatio: "none"}),
    words = document.createElement("span");
  const parts = Object.fromEntries(["perhaps", "surely", "after", "against", "fault", "cursor", "dragged"].map(
    name => [name, madeSvg(name === "perhaps" || name === "surely" ? "path" : "rect", {class: name, y: 0, height: STRIP_HIGH})]));
  svg.append(...Object.values(parts));
  frame.replaceChildren(svg, words);
  let it = null, first = 1, last = 1, drawn = "", pressed = null;

  const x = line => STRIP_WIDE * (line - first + 0.5) / (last - first + 1);
  const lineAt = clientX => {
    const {left, width} = svg.getBoundingClientRect();
    return Math.max(first, Math.min(last, first + Math.floor((clientX - left) / width * (last - first + 1))));
  };
  const place = (part, line, wide = 3) => {
    parts[part].style.display = line && first <= line && line <= last ? "" : "none";
    if (line) parts[part].setAttribute("x", Math.max(0, Math.min(STRIP_WIDE - wide, x(line) - wide / 2)));
    parts[part].setAttribute("width", wide);
  };
  const span = (part, from, past) => {
    parts[part].style.display = past > from ? "" : "none";
    parts[part].setAttribute("x", from);
    parts[part].setAttribute("width", Math.max(0, past - from));
  };

  const draw = () => {
    const {text, lines, fault, against, line} = it, until = fault ? fault - 1 : lines.count, {most} = capacityIn(text);
    if (drawn !== `${first} ${last}`) {
      drawn = `${first} ${last}`;
      const end = Math.max(first, Math.min(last, until)),
        {low, high} = columnsOf(lines, first, end, Number(most), Math.max(1, Math.min(STRIP_WIDE, end - first + 1)));
      const top = Math.max(1, high.reduce((a, b) => Math.max(a, b), 0)), share = (end - first + 1) / (last - first + 1);
      for (const [name, numbers] of [["perhaps", high], ["surely", low]]) {
        parts[name].setAttribute("d", first > until ? "" : areaOf(numbers, top));
        parts[name].setAttribute("transform", `scale(${share} 1)`);
      }
      span("after", first > until ? 0 : share * STRIP_WIDE, STRIP_WIDE);
      words.textContent = `lines ${first} to ${last} of ${lines.count} · up to ${top} inside`;
    }
    place("fault", fault, 7);
    place("against", against, 7);
    place("cursor", line, 2);
    for (const [name, value] of [["valuemin", 1], ["valuemax", lines.count], ["valuenow", line]]) svg.setAttribute(`aria-${name}`, value);
    svg.setAttribute("aria-label", `items inside, ${words.textContent}; cursor in line ${line}${fault ? `, fault in line ${fault}` : ""}`);
  };

  const zoom = (from, to) => {
    const room = Math.max(LEAST_LINES, to - from + 1), begin = Math.max(1, Math.min(from, it.lines.count - room + 1));
    [first, last] = [begin, Math.min(it.lines.count, begin + room - 1)];
    draw();
  };

  svg.onpointerdown = event => {
    pressed = {from: event.clientX, first, last, isMoving: event.shiftKey};
    svg.setPointerCapture(event.pointerId);
  };
  svg.onpointermove = event => {
    if (pressed === null || Math.abs(event.clientX - pressed.from) < DRAGGED) return;
    const {left, width} = svg.getBoundingClientRect(), [a, b] = [pressed.from, event.clientX].map(at => (at - left) / width * STRIP_WIDE);
    if (!pressed.isMoving) return span("dragged", Math.min(a, b), Math.max(a, b));
    const room = pressed.last - pressed.first, by = Math.round((a - b) / STRIP_WIDE * room);
    zoom(Math.max(1, Math.min(it.lines.count - room, pressed.first + by)),
      Math.max(1, Math.min(it.lines.count - room, pressed.first + by)) + room);
  };
  svg.onpointerup = event => {
    const {from, isMoving} = pressed ?? {from: event.clientX};
    pressed = null;
    span("dragged", 0, 0);
    if (Math.abs(event.clientX - from) < DRAGGED) stepToLine(lineAt(event.clientX));
    else if (!isMoving) zoom(lineAt(Math.min(from, event.clientX)), lineAt(Math.max(from, event.clientX)));
  };
  svg.ondblclick = () => zoom(1, it.lines.count);
  // By keys the cursor goes over the run, + and - show less of it or more.
  const keys = {ArrowLeft: -1, ArrowRight: 1, PageUp: -10, PageDown: 10};
  svg.setAttribute("tabindex", 0);
  svg.setAttribute("role", "slider");
  svg.onkeydown = event => {
    const room = last - first + 1, part = Math.max(1, Math.round(room / STEPS)),
      to = {Home: first, End: last}[event.key] ?? it.line + part * keys[event.key];
    const size = {"+": room >> 1, "-": room * 2}[event.key];
    if (Number.isNaN(to) && size === undefined || event.ctrlKey || event.altKey || event.metaKey) return;
    event.preventDefault();
    event.stopPropagation();
    if (size !== undefined) zoom(it.line - (size >> 1), it.line - (size >> 1) + Math.min(size, it.lines.count) - 1);
    else stepToLine(Math.max(1, Math.min(it.lines.count, to)));
  };

  return {
    // For another recording, everything is shown again.
    show(of) {
      if (it?.lines !== of.lines) [first, last, drawn] = [1, of.lines.count, ""];
      it = of;
      if (of.line < first || of.line > last) zoom(of.line - ((last - first) >> 1), of.line + ((last - first) >> 1));
      draw();
    },
  };
}
