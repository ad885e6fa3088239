// The sheet that a history is drawn on: its places, an event or a line each, from left to right and row by row, in lanes of their sides.
// Of a long history, only some rows are drawn.

import { operationWords } from "../text/calls.js";
import { styleOf } from "./style.js";

export const HEADING = 34; // of a picture: its verdict, which the page shows above it
export const LEFT = 84; // beside the rows
const RIGHT = 22, HEAD = 68, WHY = 22, FOOT = 62; // beside them, above and below; each line of reasons takes more
export const NARROWEST = 720; // of a picture
const WIDEST = 1280;
const MOST_ROWS = 12, FEW_ROWS = 3; // in one picture; of these around a place apart
const RING = {P: "producer", C: "consumer"};

export const round = x => Math.round(x * 10) / 10;
// A text as a picture may have it; what XML does not allow is replaced.
const NO_XML = /[^\t\n\r\x20-\ud7ff\ue000-\ufffd\u{10000}-\u{10ffff}]/gu;
export const escape = text =>
  String(text).replace(NO_XML, "\ufffd").replace(/&/g, "&amp;").replace(/</g, "&lt;").replace(/>/g, "&gt;").replace(/"/g, "&quot;");

// How the places are laid out in rows: with the widest letters with which the whole picture fits a frame of this height divided by width;
// if none do, with the narrowest. As many places in a row as fit, from `least` to `most` apart, and the rows evenly filled.
function layout({count, tall, head, aspect, least, most, widest: limit = WIDEST}) {
  let found;
  for (let widest = NARROWEST; widest <= limit; widest += 40) {
    const fit = Math.floor((widest - LEFT - RIGHT) / least);
    const rows = Math.max(1, Math.ceil(count / fit));
    const each = Math.max(4, Math.ceil(count / rows));
    const unit = Math.min(most, Math.floor((widest - LEFT - RIGHT) / each));
    const width = Math.max(LEFT + each * unit + RIGHT, NARROWEST);
    found = {rows, each, unit, width};
    if (head + rows * tall + FOOT <= width * aspect) break;
  }
  return found;
}

// The rows that are drawn, `most` at most: around this one, and some around a second one that would not be among them.
function rowsAround(rows, row, other, most) {
  const around = (row, most) => {
    const first = Math.max(0, Math.min(row - (most >> 1), rows - most));
    return Array.from({length: Math.min(most, rows)}, (_, i) => first + i);
  };
  const near = around(row, most), few = Math.min(FEW_ROWS, most >> 1);
  if (other === null || near.includes(other)) return near;
  return [...new Set([...around(other, few), ...around(row, most - few)])].sort((a, b) => a - b);
}

// A sheet with room for the places `whole`, of which the first `count` are shown; `middle` is one that is drawn, and so is `other` if it is
// not null. A row is `tall`, and `up` of that lies above its lanes; `lanes` has the places in the row at which those of the `sides` begin,
// how `high` their bars are, and the place of the numbers (`ruler`); `sides` has the names of the lanes, from the top, each with what it
// is. The places have the numbers that `numberOf` gives, which count what is `counted` up to `total`. It is no wider than `widest` and has
// at most `rows` rows; `words` is the heading, of the mood "good", "bad" or none, `ring` a second one, `reasons` what is below.
export function sheetOf({
  whole,
  count,
  middle,
  other = null,
  tall,
  up,
  lanes,
  sides = RING,
  least,
  most,
  aspect,
  words,
  mood,
  ring = null,
  reasons,
  hasReasons,
  counted,
  numberOf,
  total,
  widest,
  rows: mostRows = MOST_ROWS
}) {
  const head = HEAD + hasReasons * WHY;
  const {rows, each, unit, width} = layout({count: whole, tall, head, aspect, least, most, widest});
  const rowOf = place => Math.floor(place / each), drawn = rowsAround(rows, rowOf(middle), other === null ? null : rowOf(other), mostRows);
  const x = place => round(LEFT + (place % each + 0.5) * unit), edge = LEFT + each * unit, right = edge + 4;
  const slots = new Map(drawn.map((row, slot) => [row, slot])), isDrawn = row => slots.has(row),
    top = row => head + slots.get(row) * tall + up;
  const heading = Math.max((words.length + (ring?.words ? ring.words.length + 3 : 0)) * 12.1, ...reasons.map(it => it.length * 9.1));
  const breadth = widest ? width : Math.max(width, Math.ceil(LEFT + heading)), height = head + drawn.length * tall + FOOT;
  const names = Object.keys(sides), first = lanes[names[0]], bottom = lanes[names.at(-1)] + lanes.high, out = [];

  // The parts of a stretch of places, of which those before `shown` are shown, one for each row that it runs through and that is drawn.
  const partsOf = (begin, end, shown = count) => {
    const last = Math.max(begin, Math.min(end, shown - 1)), [from, past] = [rowOf(begin), rowOf(last)];
    if (past < drawn[0] || from > drawn.at(-1)) return [];
    return drawn.filter(row => from <= row && row <= past).map(row => {
      const begins = row === from, ends = end < shown && row === rowOf(end);
      const to = ends ? x(end) : row === past ? Math.min(x(last) + unit / 2 + 4, right) : right;
      return {y: top(row), from: begins ? x(begin) : LEFT - 4, to: round(to), begins, ends};
    });
  };

  // Some elements in one.
  const drawGroup = (attributes, parts) => out.push(`<g ${attributes}>${parts.join("")}</g>`);

  // The rows with their lanes, and a break if rows between two of them are not drawn.
  const drawRows = () => drawn.forEach((row, slot) => {
    const y = top(row), ends = Math.min(each, Math.max(whole - row * each, 0));
    for (const side of names) {
      out.push(
        `<rect class="band" x="${LEFT - 10}" y="${y + lanes[side] - 6}" width="${each * unit + 20}" height="${lanes.high + 12}" rx="4"/>`,
        `<text class="lane" x="38" y="${y + lanes[side] + 22}">${side}</text>`);
      if (slot === 0) out.push(`<text class="who" x="38" y="${y + lanes[side] + 38}">${sides[side]}</text>`);
    }
    const lines = Array.from({length: ends}, (_, i) => `M${x(i)} ${y + first - 6}V${y + bottom + 6}`);
    if (ends) out.push(`<path class="grid" d="${lines.join("")}"/>`);
    if (slot > 0 && drawn[slot - 1] < row - 1)
      out.push(`<path class="break" d="M${LEFT - 10} ${y - up}H${edge + 10}"/>`,
        `<text class="line" x="${round((LEFT + edge) / 2)}" y="${y - up + 4}">${counted}s ${numberOf((drawn[slot - 1] + 1) * each)} to ${
          numberOf(row * each - 1)} are not drawn</text>`);
  });

  // The number of a place, if there is room for it.
  const drawNumber = place => {
    const isWide = String(numberOf(place)).length > 5 && place % 2; // of two numbers that have no room side by side, one
    const isNow = place === count - 1;
    if (!isWide || isNow)
      out.push(`<text class="line${isNow ? " now" : ""}" x="${x(place)}" y="${top(rowOf(place)) + lanes.ruler}">${numberOf(place)}</text>`);
  };

  // The places that are shown and drawn.
  const placesDrawn = () =>
    drawn.flatMap(row => Array.from({length: Math.max(0, Math.min(each, count - row * each))}, (_, i) => row * each + i));

  // A line through the row at a place, and its number marked; `kind` is its class. The line begins and ends this far down in the row.
  const drawMark = (place, kind, from, to) => {
    if (!isDrawn(rowOf(place))) return;
    const y = top(rowOf(place)), at = x(place), number = String(numberOf(place)), narrow = Math.max(34, number.length * 7 + 8);
    out.push(`<path class="faultline${kind}" d="M${at} ${y + from}V${y + to}"/>`,
      `<rect class="flag${kind}" x="${round(at - narrow / 2)}" y="${y + lanes.ruler - 12}" width="${narrow}" height="16" rx="4"/>`,
      `<text class="line bad${kind}${place === count - 1 ? " now" : ""}" x="${at}" y="${y + lanes.ruler}">${number}</text>`);
  };

  // The cursor: a line through its row, after the last place that is shown, if more are drawn after it.
  const drawCursor = () => {
    const place = count - 1;
    if (place < 0 || place + 1 >= whole || !isDrawn(rowOf(place))) return;
    const at = round(x(place) + unit / 2), y = top(rowOf(place));
    out.push(`<path class="cursor" d="M${at} ${y + first - 12}V${y + bottom + 12}"/>`);
  };

  // The same for a place that contradicts one at fault.
  const drawAgainst = place => drawMark(place, " against", first - 6, bottom + 6);

  // A flag over a place, or `isBelow` it, with a line through the row; `kind` is its class.
  const drawFlag = (place, words, kind = "", isBelow = false) => {
    if (!isDrawn(rowOf(place))) return;
    const y = top(rowOf(place)), wide = words.length * 8.5 + 20,
      from = round(Math.max(LEFT - 10, Math.min(x(place) - wide / 2, edge + 10 - wide)));
    const flag = isBelow ? bottom + 12 : 2;
    out.push(`<rect class="flag${kind}" x="${from}" y="${y + flag}" width="${wide}" height="22" rx="4"/>`,
      `<text class="flagwords${kind}" x="${from + 10}" y="${y + flag + 16}">${escape(words)}</text>`);
    drawMark(place, kind, isBelow ? first - 6 : 20, isBelow ? flag : bottom + 6);
  };

  // The operations from the place `from` on and before `until` are on a line between the lanes, each at the place at which it takes effect,
  // with a tick to the lane of its side.
  const drawOrder = (order, until, from = 0) => {
    const y = lanes.ruler + 20, spots = new Map();
    for (const it of order) if (it.at < until && it.at < count) spots.set(it.at, [...spots.get(it.at) ?? [], it]);
    const placed = [...spots].flatMap(([at, all]) => all.map((it, i) => ({
      ...it,
      row: rowOf(Math.floor(at)),
      x: round(x(Math.floor(at)) + unit * (at - Math.floor(at) + (i - (all.length - 1) / 2) * 0.8 / Math.max(all.length, 2)))
    })));
    for (const row of drawn) {
      const here = placed.filter(it => it.row === row);
      if (row * each < Math.min(until, count) && (row + 1) * each > from)
        out.push(
          `<path class="order" d="M${LEFT - 4} ${top(row) + y}H${round(x(Math.min((row + 1) * each, until, count) - 1) + unit / 2)}"/>`);
      here.forEach((it, i) => {
        const tick = it.side === "P" ? -7 : 7, room = Math.min(it.x - (here[i - 1]?.x ?? -Infinity), (here[i + 1]?.x ?? Infinity) - it.x);
        const [text] = operationWords(it).filter(text => text.length * 6.6 + 3 <= room);
        out.push(
          `<g class="operation" data-of="${it.call.begin + 2}"><title>${escape(operationWords(it)[0])} takes effect</title><path d="M${
            it.x} ${top(row) + y + tick}v${- tick}"/><circle cx="${it.x}" cy="${top(row) + y}" r="3.5"/>`
          +
          `${text ? `<text class="effect" x="${it.x}" y="${top(row) + y + 15}">${escape(text)}</text>` : ""}</g>`);
      });
    }
  };

  // The heading, with these words below it, and which rows are drawn if not all are.
  const drawHead = parts => {
    const stretches = [];
    for (const row of drawn) isDrawn(row - 1) ? stretches.at(-1)[1] = row : stretches.push([row, row]);
    const rowsTold = stretches.map(([a, b]) => `${numberOf(a * each)} to ${numberOf(Math.min((b + 1) * each, whole) - 1)}`).join(" and ");
    const all = drawn.length === rows ? parts : [...parts, `${counted}s ${rowsTold} of ${total}`];
    const second = ring?.words ? `<tspan class="${ring.mood}" dx="28">${escape(ring.words)}</tspan>` : "";
    out.push(`<text class="verdict ${mood}" x="${LEFT - 10}" y="30">${escape(words)}${second}</text>`,
      `<text class="title" x="${LEFT - 10}" y="52">${all.join(" · ")}</text>`);
    reasons.forEach((line, i) => out.push(`<text class="title bad" x="${LEFT - 10}" y="${52 + (i + 1) * WHY}">${escape(line)}</text>`));
  };

  const drawLegend = parts => drawGroup(`class="legends" transform="translate(${LEFT - 10} ${height - 36})"`, parts);

  // All of it, an element of the sheet to a line; the style sheet is in it if `theme` is given.
  const textOfSheet = theme => {
    const style = theme === undefined ? "" : `<style>${styleOf(theme)}</style>`;
    return `<svg xmlns="http://www.w3.org/2000/svg" class="ring" viewBox="0 0 ${breadth} ${height}" role="img" aria-label="${
             escape(words)}">`
      +
      `${style}\n<rect class="bg" width="${breadth}" height="${height}"/>\n${out.join("\n")}\n</svg>\n`;
  };

  return {
    out,
    each,
    unit,
    drawn,
    x,
    top,
    rowOf,
    isDrawn,
    partsOf,
    placesDrawn,
    drawGroup,
    drawRows,
    drawNumber,
    drawAgainst,
    drawCursor,
    drawFlag,
    drawOrder,
    drawHead,
    drawLegend,
    textOfSheet
  };
}
