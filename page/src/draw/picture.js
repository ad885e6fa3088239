// The picture of a history: events as module.js makes them go in, the text of an SVG comes out. It places rectangles:
// what a bit holds, which reads a write overlapped, and at which places a read and a write overlap are numbers from the module.

import { callWords, partWords, partsOfCall } from "../text/calls.js";
import { accessPath } from "./bar.js";
import { LEFT, escape, round, sheetOf } from "./sheet.js";

// ---- accesses and waves ----------------------------------------------------------------------------------------------

// The accesses of events, by their places: each runs from its start to the next event of its side (`ended` if that is its end), and to
// Infinity if there is none. `strays` are the events that end nothing.
export function accessesOf(events) {
  const accesses = [], strays = [], open = {P: null, C: null};
  events.forEach((event, place) => {
    const last = open[event.side], isWrite = event.act === "write" || event.act === "wrote";
    const isBegin = event.act === "read" || event.act === "write";
    const ended = last !== null && !isBegin && last.bit === event.bit && last.isWrite === isWrite;
    if (last) {
      last.end = place;
      last.ended = ended;
      if (ended && !isWrite) {
        last.value = event.value;
        last.overlapped = event.overlapped;
      }
    }
    const {side, bit, family, index, cell, value} = event;
    open[side] =
      isBegin ? {side, bit, family, index, cell, value, isWrite, begin: place, end: Infinity, ended: false, overlapped: false} : null;
    if (isBegin) accesses.push(open[side]);
    else if (!ended) strays.push({...event, place});
  });
  return {accesses, strays};
}

// What a bit holds, from before its `first` event to the place `past` after the last of the `count` events that the module reports on:
// stretches of {from, to} with the value `held`, or with the `write` that is under way.
export function waveOf(first, events, accesses, count, past) {
  const wave = [];
  let from = -1, held = first.held;
  for (const write of accesses) {
    if (!write.isWrite || write.bit !== first.bit || write.begin >= count) continue;
    wave.push({from, to: write.begin, held}, {from: write.begin, to: Math.min(write.end, past), write});
    if (write.end >= count) return wave;
    from = write.end;
    held = events[write.end].held;
  }
  wave.push({from, to: past, held});
  return wave;
}

const MOST_WAVES = 5;

// The first events of the bits whose waves are drawn, and out of how many. "some": those of overlapped reads and of
// the fault, or else those that are written, five of them at most, that of the fault first.
function wavesOf(events, fault, choice) {
  const seen = events.slice(0, fault ?? events.length), firsts = new Map();
  for (const it of seen) if (!firsts.has(it.bit)) firsts.set(it.bit, it);
  const bits =
    isChosen => [...new Set(seen.filter(isChosen).map(it => it.bit))].map(bit => firsts.get(bit)).sort((a, b) => a.rank - b.rank);
  if (choice === "none") return {drawn: [], of: 0};
  const all = bits(() => true);
  if (choice === "all") return {drawn: all, of: all.length};
  const isFaulty = it => fault !== null && it.bit === events[fault].bit;
  const clashing = bits(it => it.clashes || it.overlapped || isFaulty(it));
  const chosen = clashing.length ? clashing : bits(it => it.act === "write");
  const first = new Set([...bits(isFaulty), ...chosen].slice(0, MOST_WAVES));
  return {drawn: chosen.filter(it => first.has(it)), of: chosen.length};
}

// ---- the picture -----------------------------------------------------------------------------------------------------

const LEAST = 34, MOST = 92; // between two events
const CALLS = 50; // the height of a side's braces
const ROW = 176, WAVES = 14, WAVE = 27, SWING = 18; // heights: of a row, around its waves, of one, of its step
const P_BAR = 44, C_BAR = 122, BAR = 28, RULER = 101; // within a row
const ORDER = 34; // between the lanes, for the order of the operations

// The picture of `events`, of which the one at place `fault` is at fault (null: none is), and the one at `broken` not of the program, in a
// frame with room for the events `whole`. `found` has what is found about the calls, if that is a fault: its cause, its place and, if one
// contradicts it, the place of that; the counts wrap at `roundAt`. `words` is its heading, of the mood "good", "bad" or none, with that of
// the `ring`; `kind` and `why` are those of the fault, `due` is what was due. `calls` are braced, with room for braces if it `hasCalls`;
// the operations of the `order` are between the lanes. `waves` is "some", "all" or "none". The events have the numbers of their lines, or
// else `numbers`, which count what is `counted` up to `total`. The style sheet is in the picture if `theme` is given.
export function picture({
  shape,
  events,
  whole = events,
  fault = null,
  wholeFault = fault,
  broken = null,
  wholeBroken = broken,
  words,
  mood = "",
  ring = null,
  kind = "",
  why = "",
  due = "",
  calls = [],
  hasCalls = calls.length > 0,
  order = [],
  found = null,
  roundAt = shape.modulus,
  waves = "some",
  counted = "line",
  numbers = null,
  total = whole.length + 1,
  aspect = 9 / 16,
  widest,
  theme
}) {
  const {drawn: waveBits, of: wavesInAll} = wavesOf(whole, wholeFault, waves);
  const numberOf = place => numbers ? numbers[place] : place + 2;
  const up = hasCalls ? CALLS : 0, between = order.length ? ORDER : 0; // above a row, and as much below it; between its lanes
  const cBar = C_BAR + between, tallRow = ROW + between;
  const {accesses, strays} = accessesOf(events);
  const count = events.length, stop = Math.min(broken ?? Infinity, fault ?? Infinity);
  const hasReasons = [wholeFault, wholeBroken].filter(it => it !== null).length + (found && why ? 1 : 0);
  const sheet = sheetOf({
    whole: whole.length,
    count,
    middle: Math.max(0, fault ?? broken ?? count - 1),
    tall: tallRow + 2 * up + (waveBits.length ? WAVES + waveBits.length * WAVE : 0),
    up,
    lanes: {P: P_BAR, C: cBar, high: BAR, ruler: RULER},
    least: LEAST,
    most: MOST,
    aspect,
    words,
    mood,
    ring,
    reasons: [why, due].filter(Boolean),
    hasReasons,
    counted,
    numberOf,
    total,
    widest
  });
  const {out, each, unit, x, top, rowOf, isDrawn, partsOf} = sheet;
  const lane = side => side === "P" ? P_BAR : cBar;
  const name = side => side === "P" ? P_BAR - 7 : cBar + BAR + 18;

  // While a read and a write of one bit are open, the stretch from one event to the next is shaded between the lanes.
  const drawClashes = () => events.forEach((event, place) => {
    if (!event.clashes) return;
    for (const {y, from, to, begins, ends} of partsOf(place, place + 1)) {
      out.push(`<rect class="clash" x="${from}" y="${y + P_BAR + BAR}" width="${round(to - from)}" height="${cBar - P_BAR - BAR}"/>`);
      if (begins) out.push(`<path class="clashedge" d="M${from} ${y + P_BAR + BAR}V${y + cBar}"/>`);
      if (ends) out.push(`<path class="clashedge" d="M${to} ${y + P_BAR + BAR}V${y + cBar}"/>`);
    }
  });

  // The lines of the trace, each tied to the lane of its side.
  const drawLines = () => {
    const ties = [];
    for (const place of sheet.placesDrawn()) {
      const y = top(rowOf(place)), at = x(place);
      const [from, to] = events[place].side === "P" ? [P_BAR + BAR + 2, RULER - 12] : [RULER + 4, cBar - 2];
      ties.push(`M${at} ${y + from}V${y + to}`);
      if (place !== fault && place !== broken && place !== found?.place && place !== found?.against) sheet.drawNumber(place);
    }
    if (ties.length) out.push(`<path class="tie" d="${ties.join("")}"/>`);
  };

  const drawAccess = it => {
    const parts = partsOf(it.begin, it.end);
    if (!parts.length) return;
    const isFault = [fault, broken].some(at => at !== null && (it.begin === at || it.ended && it.end === at));
    const classes = [it.isWrite ? "write" : "read", it.family, it.overlapped && "free", isFault && "fault",
      fault !== null && it.begin > fault && "pale"].filter(Boolean).join(" ");
    const does = it.isWrite ? `writes ${it.value} to ${it.bit}` : it.ended ? `reads ${it.bit}: ${it.value}` : `reads ${it.bit}`;
    const when = it.ended ? `${counted}s ${numberOf(it.begin)} to ${numberOf(it.end)}` : `from ${counted} ${numberOf(it.begin)}, open`;
    const call = it.begin >= stop ? undefined : calls.find(of => of.side === it.side && of.begin <= it.begin && it.begin <= of.end);
    const own = [`<title>${it.side} ${does}, ${when}${call ? `, of ${callWords(call)[1]}` : ""}</title>`];
    for (const {y: rowTop, from, to, begins, ends} of parts) {
      const y = rowTop + lane(it.side);
      own.push(accessPath(y, BAR, from, to, begins, ends && it.ended),
        `<text class="bit" x="${round((from + to) / 2)}" y="${rowTop + name(it.side)}">${it.bit}</text>`);
      // The value that is written is at the start of a long bar, an answer at its end.
      if (!it.isWrite && !(ends && it.ended)) continue;
      const isLong = it.end - it.begin > 2 && to - from > 60;
      const at = !isLong ? (from + to) / 2 : it.isWrite ? from + 17 : to - 17;
      own.push(`<text class="digit" x="${round(at)}" y="${y + 20.5}">${it.value}</text>`);
    }
    sheet.drawGroup(`class="${classes}" data-line="${it.begin + 2}"`, own);
  };

  const drawStray = it => {
    if (!isDrawn(rowOf(it.place))) return;
    const y = top(rowOf(it.place)), at = x(it.place), bar = y + lane(it.side);
    const classes = ["read", it.family, it.place === fault ? "fault" : "pale"].join(" ");
    sheet.drawGroup(`class="${classes}"`, [`<title>${it.side} ${it.act} ${it.bit}, ${counted} ${numberOf(it.place)}: ends nothing</title>`,
      `<path d="M${at - 10} ${bar}H${at}V${bar + BAR}H${at - 10}"/><text class="bit" x="${at}" y="${y + name(it.side)}">${it.bit}</text>`]);
  };

  // A call is a brace over the lane of its side, with what it came to; its parts are between the brace and the bars.
  const drawCall = call => {
    const isPut = call.side === "P", [short, long] = callWords(call),
      when = call.end < Infinity ? `${counted}s ${numberOf(call.begin)} to ${numberOf(call.end)}`
                                 : `from ${counted} ${numberOf(call.begin)}, under way`;
    const [line, tip, label, below] = isPut ? [-22, -15, -28, -4] : [tallRow + 22, tallRow + 15, tallRow + 37, tallRow + 8];
    const fits = (text, wide) => text.length * 7.4 + 4 <= wide;
    const own = [`<title>${call.side} ${escape(long)}, ${when}</title>`];
    const until = Math.min(call.end, stop); // nothing is known of calls from there on
    partsOf(call.begin, until).forEach(({y, from, to, begins, ends}) => {
      const left = begins ? `M${from} ${y + tip}V${y + line}` : `M${from} ${y + line}`,
        right = ends && call.end < Infinity ? `H${to}V${y + tip}` : `H${to}`;
      own.push(`<path d="${left}${right}"/>`);
      const text = [long, short].find(it => it && fits(it, to - from + unit * 0.8));
      if (text) own.push(`<text class="callwords" x="${round((from + to) / 2)}" y="${y + label}">${escape(text)}</text>`);
    });
    for (const part of partsOfCall({...call, end: until}, accesses.filter(it => it.begin < stop))) {
      for (const {y, from, to} of partsOf(part.begin, part.end)) {
        const text = partWords(part, call, roundAt).find(it => it.length * 6.6 <= to - from + unit * 0.8);
        if (text) own.push(`<text class="part" x="${round((from + to) / 2)}" y="${y + below}">${text}</text>`);
      }
    }
    const isOf = at => at !== null && at !== undefined && (call.begin === at || call.end === at);
    sheet.drawGroup(`class="call${
                      isOf(found?.place)       ? " fault"
                        : isOf(found?.against) ? " against"
                                               : ""}" data-call="${call.begin + 2}"`,
      own);
  };

  const drawWave = (bit, number) => {
    const down = tallRow + up + 6 + number * WAVE;
    for (const row of sheet.drawn)
      if (row <= rowOf(Math.max(0, (fault ?? count) - 1)))
        out.push(`<text class="wavename ${bit.family}" x="${LEFT - 16}" y="${top(row) + down + 14}">${bit.bit}</text>`);
    for (const {from, to, held, write} of waveOf(bit, events, accesses, fault ?? count, fault ?? count - 0.5)) {
      for (const row of sheet.drawn) {
        const low = Math.max(from, row * each - 0.5), high = Math.min(to, (row + 1) * each - 0.5);
        if (low >= high) continue;
        const [a, b] = [low, high].map(place => round(LEFT + (place - row * each + 0.5) * unit)), y = top(row) + down;
        if (write) {
          out.push(`<rect class="underway" x="${a}" y="${y}" width="${round(b - a)}" height="${SWING}"/>`);
          if (b - a > 30) out.push(`<text class="becomes" x="${round((a + b) / 2)}" y="${y + 13.5}">→ ${write.value}</text>`);
        } else {
          out.push(`<path class="level ${bit.family}" d="M${a} ${y + (held ? 1 : SWING - 1)}H${b}"/>`);
          if (b - a > 14) out.push(`<text class="held ${bit.family}" x="${a + 5}" y="${y + 13.5}">${held}</text>`);
        }
      }
    }
  };

  const drawHead = () => {
    const parts = [`capacity ${shape.capacity}`, `modulus ${shape.modulus}`, `width ${shape.width}`];
    if (shape.batch > 1) parts.push(`batch ${shape.batch}`);
    if (shape.take_batch > 1) parts.push(`take batch ${shape.take_batch}`);
    if (roundAt !== shape.modulus) parts.push(`counts go round at ${roundAt}`);
    if (wavesInAll > MOST_WAVES)
      parts.push(
        waveBits.length < wavesInAll ? `waveforms of ${waveBits.length} of ${wavesInAll} bits` : `waveforms of all ${wavesInAll} bits`);
    sheet.drawHead(parts);
  };

  const drawLegend = () => {
    const parts = [`<g class="write s"><path d="M1 -11h21v14h-21z"/></g><text class="legend" x="32" y="0">write, its value</text>`,
      `<g class="read s"><path d="M170 -11h21v14h-21z"/></g><text class="legend" x="201" y="0">read, its answer</text>`,
      `<g class="read s free"><path d="M1 13h21v14h-21z"/></g>`,
      `<text class="legend" x="32" y="24">a write of the bit overlaps the read: any answer is permitted</text>`];
    if (waveBits.length) parts.push(`<path class="level s" d="M339 -10h14M369 3h14"/>`,
      `<rect class="underway" x="353" y="-11" width="16" height="15"/><text class="legend" x="393" y="0">what the bit holds</text>`);
    if (hasCalls) parts.push(`<g class="call"><path d="M530 24v-8h30v8"/></g><text class="legend" x="570" y="24">a call</text>`);
    if (order.length)
      parts.push(
        `<g class="operation"><path class="order" d="M545 -3h20"/><path d="M555 -10v7"/><circle cx="555" cy="-3" r="3.5"/></g>`,
        `<text class="legend" x="570" y="0">its effect</text>`);
    sheet.drawLegend(parts);
  };

  drawHead();
  sheet.drawRows();
  drawClashes();
  drawLines();
  accesses.forEach(drawAccess);
  strays.forEach(drawStray);
  waveBits.forEach(drawWave);
  calls.forEach(drawCall);
  if (order.length) sheet.drawOrder(order, stop);
  if (found?.place !== null && found?.place !== undefined) {
    if (found.against !== null) sheet.drawAgainst(found.against);
    sheet.drawFlag(found.place, found.cause);
  }
  if (broken !== null) sheet.drawFlag(broken, `line ${broken + 2}: not of the program`);
  if (fault !== null) sheet.drawFlag(fault, `line ${fault + 2}: ${kind}`);
  drawLegend();
  return sheet.textOfSheet(theme);
}
