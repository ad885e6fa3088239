// The picture of recorded calls: a bar for each call of a side, from the line that begins it to the one that ends it, with the words of
// both. It places rectangles: the line at fault, and the one that contradicts it, are numbers from the module.

import { MOST_CALLED } from "../text/calls.js";
import { callsWithin, capacityIn, lineIn } from "../text/recorded_lines.js";
import { LETTER, SMALL, barPath, barWords, fitted } from "./bar.js";
import { escape, round, sheetOf } from "./sheet.js";

const BARS = {P: 34, C: 116, high: 42, ruler: 100}; // within a row
const EFFECTS = 36, UNDER = 42; // between the lanes, for the order of the operations; under them, for a flag
const NEAR = 50, FAR = 110; // between two lines
const MOST_WORDS = 34; // letters of a line that a flag has

// The picture of the first `count` lines after the first of this recording, in a frame with room for all. The place `fault` is at fault
// (null: none is), with the words `cause`; the one at `contradicts` contradicts it. `order` has the operations, from the place `ordered`
// on; `ring` is a second heading, as in sheet.js.
export function bars({
  text,
  lines,
  count,
  fault = null,
  contradicts = null,
  cause = "",
  words,
  mood = "",
  ring = null,
  why = "",
  order = [],
  ordered = 0,
  aspect = 9 / 16,
  widest,
  rows,
  theme
}) {
  const {full, most} = capacityIn(text), whole = lines.count - 1, lanes = {...BARS, C: BARS.C + (order.length ? EFFECTS : 0)};
  const sheet = sheetOf({
    whole,
    count,
    middle: Math.max(0, count - 1),
    other: fault === null || fault === count - 1 ? contradicts : fault,
    tall: lanes.C + lanes.high + UNDER,
    up: 0,
    lanes,
    least: Math.max(NEAR, Math.ceil(lines.digits * LETTER) + 8),
    most: Math.max(FAR, Math.ceil(lines.digits * LETTER) + 8),
    aspect,
    words,
    mood,
    ring,
    reasons: [why].filter(Boolean),
    hasReasons: why ? 1 : 0,
    counted: "line",
    numberOf: place => place + 2,
    total: lines.count,
    widest,
    rows
  });
  const {x, top, rowOf, isDrawn, partsOf, drawn, each, unit} = sheet;

  // The calls of the rows that are drawn, each once.
  const callsDrawn = () => {
    const found = new Map();
    for (const row of drawn) {
      const first = row * each + 2, last = Math.min((row + 1) * each, count) + 1;
      for (const it of callsWithin(text, lines, first, last)) if (it.begin < count) found.set(it.begin, it);
    }
    return [...found.values()];
  };

  // The call that begins in the line at fault: one of its side that has not ended is cut there.
  const second = fault === null ? undefined : callsWithin(text, lines, fault + 2, fault + 2).find(it => it.begin === fault);

  const drawBar = call => {
    const isCut = call.end === Infinity && call.begin < fault && call.side === second?.side, end = isCut ? fault : call.end,
      hasEnded = !isCut && end < count;
    const classes = [
      "bar", call.side === "P" ? "s" : "r", (call.begin === fault || hasEnded && call.end === fault) && "fault",
      contradicts !== null && (call.begin === contradicts || hasEnded && call.end === contradicts) && "against",
      fault !== null && call.begin > fault && "pale"
    ].filter(Boolean);
    const said = hasEnded ? `${call.asks}: ${call.says}, lines ${call.begin + 2} to ${call.end + 2}`
                          : `${call.asks}, from line ${call.begin + 2}, ${isCut ? "not ended" : "under way"}`;
    const own = [`<title>${call.side} ${escape(said)}</title>`];
    for (const {y: rowTop, from, to, begins, ends} of partsOf(call.begin, end)) {
      const y = rowTop + lanes[call.side];
      own.push(`<rect class="bg" x="${from}" y="${y}" width="${round(to - from)}" height="${lanes.high}"/>`,
        barPath(y, lanes.high, from, to, begins, ends), ...barWords(call, y, from, to, hasEnded));
    }
    sheet.drawGroup(`class="${classes.join(" ")}" data-line="${call.begin + 2}"`, own);
  };

  // In a long recording, of which some rows are drawn, the calls after the cursor, pale.
  const drawLater = () => drawn.forEach(row => {
    const first = Math.max(row * each, count);
    for (let place = first; place < Math.min((row + 1) * each, whole); place++) sheet.drawNumber(place);
    for (const call of callsWithin(text, lines, first + 2, Math.min((row + 1) * each, whole) + 1).filter(it => it.begin >= first)) {
      const own = [`<title>${call.side} ${escape(call.asks)}, from line ${call.begin + 2}, after the cursor</title>`];
      for (const {y, from, to, begins, ends} of partsOf(call.begin, call.end, whole))
        own.push(barPath(y + lanes[call.side], lanes.high, from, to, begins, ends),
          ...barWords(call, y + lanes[call.side], from, to, ends));
      sheet.drawGroup(`class="bar later ${call.side === "P" ? "s" : "r"}" data-line="${call.begin + 2}"`, own);
    }
  });

  // A line at fault that ends no call.
  const drawStray = place => {
    if (lines.mates[place + 2] || second || !isDrawn(rowOf(place))) return;
    const line = lineIn(text, lines, place + 2), [side] = line, y = top(rowOf(place)) + lanes[side];
    sheet.drawGroup(`class="bar ${side === "P" ? "s" : "r"} fault"`, [`<title>${escape(line)}, line ${place + 2}: ends no call</title>`,
      `<path d="M${round(x(place) - unit * 0.6)} ${y}H${x(place)}V${y + lanes.high}H${round(x(place) - unit * 0.6)}"/>`,
      `<text class="says" x="${round(x(place) - unit * 0.3)}" y="${y + 34}">${escape(fitted(line.slice(2), unit * 0.6, SMALL))}</text>`]);
  };

  const from = full === "0" ? "at any time" : `from ${full} item${full === "1" ? "" : "s"} on`;
  const bound = full === most ? `a queue of ${most}` : `a queue that may be full ${from}, and holds ${most} at most`;
  const capacity = full === Infinity ? "a queue that is never full" : bound;
  sheet.drawHead([capacity]);
  sheet.drawRows();
  for (const place of sheet.placesDrawn()) if (place !== fault && place !== contradicts) sheet.drawNumber(place);
  callsDrawn().forEach(drawBar);
  if (lines.count > MOST_CALLED) {
    drawLater();
    sheet.drawCursor();
  }
  if (fault !== null) drawStray(fault);
  if (order.length) sheet.drawOrder(order, fault ?? Infinity, ordered);
  const cut = line => line.length > MOST_WORDS ? `${line.slice(0, MOST_WORDS)}…` : line;
  if (contradicts !== null)
    sheet.drawFlag(contradicts, `line ${contradicts + 2}: ${cut(lineIn(text, lines, contradicts + 2))}`, " against", true);
  if (fault !== null) sheet.drawFlag(fault, `line ${fault + 2}: ${cause}`);
  const parts = [
    `<g class="bar s"><path d="M1 -11h21v14h-21z"/></g><text class="legend" x="32" y="0">a call of P, from its begin to its end</text>`,
    `<g class="bar r"><path d="M1 13h21v14h-21z"/></g><text class="legend" x="32" y="24">a call of C</text>`
  ];
  if (order.length)
    parts.push(
      `<g class="operation"><path class="order" d="M345 -3h20"/><path d="M355 -10v7"/><circle cx="355" cy="-3" r="3.5"/></g>`,
      `<text class="legend" x="375" y="0">its effect</text>`);
  if (contradicts !== null)
    parts.push(
      `<rect class="chip against" x="334" y="13" width="34" height="16" rx="4"/>`,
      `<text class="legend" x="375" y="24">the line that contradicts it</text>`);
  sheet.drawLegend(parts);
  return sheet.textOfSheet(theme);
}
