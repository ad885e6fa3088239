// The picture of a register's history: its operations, each from the place that begins it to the one that ends it, as bars; for a
// construction, as braces over its accesses, with what the registers hold that it is built from. It places rectangles: the module says what
// is at fault, and what contradicts it.

import { LETTER, accessPath, barPath, barWords } from "./bar.js";
import { escape, round, sheetOf } from "./sheet.js";
import { drawWaves, wavesOf } from "./waves.js";

const BARS = {first: 34, ruler: 100, readers: 116, apart: 58, high: 42, under: 42}; // within a row, of operations as bars
const BRACES = {first: 60, ruler: 122, readers: 162, apart: 88, high: 28, under: 28}; // over accesses
const WAVES = 14, WAVE = 27; // around the waves of a row; the height of one
const NEAR = 46, FAR = 100; // between two places
const BEYOND = 10; // of a brace beyond its accesses; half an access that is one place
const WIDE = 11, NARROW = 7; // letters in an access
const MOST_HEAD = 70; // characters

const lanesOf = (sides, {first, ruler, readers, apart, high}) =>
  ({ruler, high, ...Object.fromEntries(sides.map((side, i) => [side, i ? readers + (i - 1) * apart : first]))});

// What an operation asks and says, and both in one.
const wordsOf = ({isWrite, value, answer}) =>
  isWrite ? {asks: `write ${value}`, says: "wrote", both: `write ${value}`, short: value}
          : {asks: "read", says: `got ${answer}`, both: `read: ${answer}`, short: answer};

// The picture of the first `count` of the places `whole`, which are lines or steps, as `counted` says, with the numbers of `numberOf` up to
// `total`. `operations` are {side, isWrite, value, answer, begin, end} and `accesses` {side, register, isWrite, value, begin, end,
// isOverlapped}, with Infinity for an end that is not there; `registers` are {name, first}, and `waves` says whose values are drawn. The
// operation that ends at the place `fault` is at fault, in the words of the `flag`; those of the places `against` contradict it. `head` is
// what is below the verdict `words`.
export function history({
  sides,
  whole,
  count,
  operations,
  accesses = null,
  registers = [],
  waves = "some",
  fault = null,
  flag = "",
  against = [],
  digits = 1,
  head = "",
  words,
  mood = "",
  why = "",
  counted = "line",
  numberOf = place => place + 2,
  total = whole + 1,
  aspect = 9 / 16,
  widest,
  rows,
  theme
}) {
  const isOfBars = accesses === null, form = isOfBars ? BARS : BRACES, lanes = lanesOf(sides, form);
  const {drawn: shownWaves, of: wavesInAll} = isOfBars ? {drawn: [], of: 0} : wavesOf(registers, accesses, waves);
  const underLanes = lanes[sides.at(-1)] + lanes.high + form.under,
    least = isOfBars ? Math.max(NEAR, Math.ceil(digits * LETTER) + 8) : NEAR;
  const others = [...against].filter(it => it < count && it !== fault);
  const sheet = sheetOf({
    whole,
    count,
    middle: Math.max(0, count - 1),
    other: fault === null || fault === count - 1 ? others.at(-1) ?? null : fault,
    tall: underLanes + (shownWaves.length ? WAVES + shownWaves.length * WAVE : 0),
    up: 0,
    lanes,
    sides: Object.fromEntries(sides.map((side, i) => [side, i ? "" : "writes"])),
    least,
    most: Math.max(FAR, least),
    aspect,
    words,
    mood,
    reasons: [why].filter(Boolean),
    hasReasons: why ? 1 : 0,
    counted,
    numberOf,
    total,
    widest,
    rows
  });
  const {rowOf, isDrawn, partsOf, unit, drawn} = sheet;
  const isAt = (it, place) => it.begin === place || it.end === place && place < count;
  const isFault = it => fault !== null && isAt(it, fault), isAgainst = it => !isFault(it) && against.some(place => isAt(it, place));
  const isSeen = it => it.begin < count && rowOf(it.begin) <= drawn.at(-1)
    && rowOf(Math.min(it.end, Math.max(it.begin, count - 1))) >= drawn[0];
  const family = side => side === "W" ? "s" : "r";
  const marksOf = it => [isFault(it) && "fault", isAgainst(it) && "against"].filter(Boolean);
  const when = it => it.end < count ? it.begin === it.end ? `${counted} ${numberOf(it.begin)}`
                                                          : `${counted}s ${numberOf(it.begin)} to ${numberOf(it.end)}`
                                    : `from ${counted} ${numberOf(it.begin)}, under way`;
  const titleOf = (it, said) => `<title>${it.side} ${escape(said)}, ${when(it)}</title>`;

  const drawBar = it => {
    const said = wordsOf(it), hasEnded = it.end < count, own = [titleOf(it, hasEnded ? said.both : said.asks)];
    for (const {y: rowTop, from, to, begins, ends} of partsOf(it.begin, it.end)) {
      const y = rowTop + lanes[it.side];
      own.push(`<rect class="bg" x="${from}" y="${y}" width="${round(to - from)}" height="${lanes.high}"/>`,
        barPath(y, lanes.high, from, to, begins, ends), ...barWords(said, y, from, to, hasEnded));
    }
    sheet.drawGroup(`class="${["bar", family(it.side), ...marksOf(it)].join(" ")}" data-line="${it.begin + 2}"`, own);
  };

  const drawBrace = it => {
    const said = wordsOf(it), hasEnded = it.end < count, over = Math.min(BEYOND, unit / 3),
      own = [titleOf(it, hasEnded ? said.both : said.asks)];
    for (const {y: rowTop, from, to, begins, ends} of partsOf(it.begin, it.end)) {
      const y = rowTop + lanes[it.side], [line, tip] = [y - 14, y - 7];
      const a = begins ? round(from - over) : from, b = ends ? round(to + over) : to;
      own.push(`<path d="${begins ? `M${a} ${tip}V${line}` : `M${a} ${line}`}H${b}${ends ? `V${tip}` : ""}"/>`);
      const text = [hasEnded ? said.both : said.asks, said.short].find(words => String(words ?? "").length * 7.4 <= b - a + unit * 0.6);
      if (text !== undefined) own.push(`<text class="callwords" x="${round((a + b) / 2)}" y="${line - 5}">${escape(text)}</text>`);
    }
    sheet.drawGroup(`class="${["call", ...marksOf(it)].join(" ")}" data-call="${it.begin + 2}"`, own);
  };

  const drawAccess = it => {
    const hasEnded = it.end < count, isPoint = it.begin === it.end, isTold = it.isWrite || hasEnded, {register} = it;
    const classes = [it.isWrite ? "write" : "read", family(it.side), hasEnded && it.isOverlapped && "free"].filter(Boolean).join(" ");
    const of = operations.find(other => other.side === it.side && other.begin <= it.begin && it.begin <= other.end);
    const does = it.isWrite ? `writes ${it.value} to ${register}` : hasEnded ? `reads ${register}: ${it.value}` : `reads ${register}`;
    const own = [`<title>${it.side}: ${escape(does)}, ${when(it)}${of ? `, of its ${of.isWrite ? "write" : "read"}` : ""}</title>`];
    for (const {y: rowTop, from: left, to: right, begins, ends} of partsOf(it.begin, it.end)) {
      const y = rowTop + lanes[it.side], half = Math.min(BEYOND, unit / 3);
      const [from, to] = isPoint ? [round(left - half), round(right + half)] : [left, right];
      own.push(accessPath(y, lanes.high, from, to, begins, ends && hasEnded));
      const value = String(it.value ?? ""), room = to - from - 4, isIn = isTold && value.length * NARROW <= room;
      if (isTold && value.length * WIDE <= room)
        own.push(`<text class="digit" x="${round((from + to) / 2)}" y="${y + 20.5}">${escape(value)}</text>`);
      else if (isIn) own.push(`<text class="digit little" x="${round((from + to) / 2)}" y="${y + 18.5}">${escape(value)}</text>`);
      const name = isTold && !isIn ? `${register}=${value}` : register, most = Math.max(3, Math.floor((to - from + unit * 0.8) / 8.4));
      own.push(`<text class="bit" x="${round((from + to) / 2)}" y="${y + lanes.high + 16}">${
        escape(name.length <= most ? name : `${name.slice(0, most - 1)}…`)}</text>`);
    }
    sheet.drawGroup(`class="${classes}" data-line="${it.begin + 2}"`, own);
  };

  const drawLegend = () => {
    const brace = `<g class="call"><path d="M1 3v-8h30v8"/></g><text class="legend" x="42" y="0">an operation, and its result</text>`;
    const write = `<g class="bar s"><path d="M1 -11h21v14h-21z"/></g>`;
    const bars = [`${write}<text class="legend" x="32" y="0">a write, from its begin to its end</text>`,
      `<g class="bar r"><path d="M1 13h21v14h-21z"/></g><text class="legend" x="32" y="24">a read</text>`];
    const parts = isOfBars ? bars : [
      brace, `<g class="write s"><path d="M268 -11h21v14h-21z"/></g><text class="legend" x="299" y="0">an access that writes</text>`,
      `<g class="read r"><path d="M470 -11h21v14h-21z"/></g><text class="legend" x="501" y="0">one that reads</text>`,
      `<g class="read r free"><path d="M1 13h21v14h-21z"/></g>`,
      `<text class="legend" x="42" y="24">overlapped by a write: its kind says what it may return</text>`,
      ...shownWaves.length ? [`<rect class="underway" x="470" y="13" width="21" height="15"/>`,
        `<text class="legend" x="501" y="24">being written</text>`] : [],
    ];
    if (isOfBars && others.length)
      parts.push(`<rect class="chip against" x="334" y="13" width="34" height="16" rx="4"/>`,
        `<text class="legend" x="375" y="24">what contradicts it</text>`);
    sheet.drawLegend(parts);
  };

  const more = shownWaves.length < wavesInAll ? `values of ${shownWaves.length} of ${wavesInAll} registers` : "";
  sheet.drawHead([escape(head.length > MOST_HEAD ? `${head.slice(0, MOST_HEAD - 1)}…` : head), more].filter(Boolean));
  sheet.drawRows();
  for (const place of sheet.placesDrawn()) if (place !== fault && !others.includes(place)) sheet.drawNumber(place);
  // what is marked lies under the operations, whose words stay to be read
  for (const place of others) sheet.drawAgainst(place);
  if (fault !== null && isDrawn(rowOf(fault))) sheet.drawFlag(fault, flag);
  if (!isOfBars) accesses.filter(isSeen).forEach(drawAccess);
  operations.filter(isSeen).forEach(isOfBars ? drawBar : drawBrace);
  drawWaves(sheet, {shown: shownWaves, accesses: accesses ?? [], count, down: underLanes + 6});
  drawLegend();
  return sheet.textOfSheet(theme);
}
