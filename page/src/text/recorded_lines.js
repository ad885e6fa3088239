// The text of recorded calls: its lines, the calls that they begin and end, what is counted in them, and the rows of its report. The module
// says whether a text is a recording, whether its history is linearizable, and what contradicts a line.

export const MANY = 2 ** 31 - 1; // a number that means itself and all larger ones

// Whether a line begins a call; and whether it ends one that passed items (stored, some, item). By its letters, since there may be millions
// of lines.
function isBegin(text, at) {
  const letter = text.charCodeAt(at + 2);
  return letter === 112 || letter === 116 || letter === 99 && text.charCodeAt(at + 7) !== 100;
}
function isPassing(text, at) {
  const letter = text.charCodeAt(at + 2), next = text.charCodeAt(at + 3);
  return letter === 105 || letter === 115 && (next === 116 || next === 111);
}

// The number that is here, MANY at most.
function numberAt(text, at) {
  let number = 0;
  for (let code = text.charCodeAt(at); code >= 48 && code <= 57; code = text.charCodeAt(++at))
    number = Math.min(MANY, number * 10 + code - 48);
  return number;
}

// How many numbers a line has, from its word on: a space is before each.
function numbersIn(text, from, to) {
  let count = 0;
  for (let at = from; at < to; at++) if (text.charCodeAt(at) === 32) count++;
  return count;
}

// How many digits the longest number of a text has, up to `most`.
export function longestIn(text, most) {
  let longest = 0, here = 0;
  for (let at = 0; at < text.length && longest < most; at++) {
    const code = text.charCodeAt(at);
    here = code >= 48 && code <= 57 ? here + 1 : 0;
    if (here > longest) longest = here;
  }
  return longest;
}
export const MOST_DIGITS = 20; // of a number below 2^64

// Where the lines of a text begin, counted from 1, and after the last one its end; and how many there are.
export function startsOf(text) {
  const next = at => text.indexOf("\n", at) + 1 || text.length;
  let count = 0;
  for (let at = 0; at < text.length; at = next(at)) count++;
  const starts = new Int32Array(count + 2);
  for (let line = 1; line <= count; line++) starts[line + 1] = next(starts[line]);
  return {starts, count};
}

// The lines of a recording, counted from 1: `starts` and `count` as above. For a line that begins a call the one that ends it,
// and for one that ends a call the one that began it, is its mate (`mates`; 0: none), and the last line before it of the other side is in
// `others`. `stored` and `taken` count the items of the puts and takes that have ended up to a line: `low` are inside then whatever the
// calls under way have done, and no more than `high`. `closedAt` is the line that ended the first close, or 0, and `digits` how many the
// longest number has.
export function linesOf(text) {
  const {starts, count} = startsOf(text),
    [mates, others, stored, taken, low, high] = Array.from({length: 6}, () => new Int32Array(count + 2));
  const open = [0, 0], last = [0, 0], passing = [0, 0],
    passed = [0, 0]; // of P and of C: the line of the call under way, the last line; items that it may pass, and that were passed
  let closedAt = 0;
  for (let line = 2; line <= count; line++) {
    const at = starts[line], side = text.charCodeAt(at) === 80 ? 0 : 1, of = numbersIn(text, at + 2, starts[line + 1]);
    if (isBegin(text, at)) {
      open[side] = line;
      passing[side] = side ? (of ? numberAt(text, at + 7) : 1) : closedAt ? 0 : of;
    } else if (open[side]) {
      if (isPassing(text, at)) passed[side] += side ? of : of ? numberAt(text, text.indexOf(" ", at + 2) + 1) : passing[0];
      else if (!side && !closedAt && text.startsWith("close", starts[open[0]] + 2)) closedAt = line;
      mates[line] = open[side];
      mates[open[side]] = line;
      open[side] = passing[side] = 0;
    }
    last[side] = line;
    others[line] = last[1 - side];
    stored[line] = passed[0];
    taken[line] = passed[1];
    low[line] = Math.max(0, passed[0] - passed[1] - passing[1]);
    high[line] = Math.max(0, passed[0] - passed[1] + passing[0]);
  }
  return {starts, mates, others, stored, taken, low, high, closedAt, count, digits: longestIn(text, MOST_DIGITS)};
}

// The last line of a side up to this one, or 0.
export const lastOf = (text, {starts, others}, side, line) => line < 2 ? 0 : text[starts[line]] === side ? line : others[line];

// The line of the call of a side that is under way at a line, or 0.
export function isUnderWay(text, lines, side, line) {
  const last = lastOf(text, lines, side, line);
  return last && isBegin(text, lines.starts[last]) ? last : 0;
}

// The line at which the next call ends after this one, or, with `by` -1, the last one before it; this line if there is none.
export function endOfCall({mates, count}, line, by) {
  for (let at = line + by; at > 1 && at <= count; at += by) if (mates[at] && mates[at] < at) return at;
  return line;
}

// The items of a line that puts some, or takes some; how many a take asks for.
export const itemsOf = (text, lines, line) => lineIn(text, lines, line).split(" ").slice(2);
export const wantedAt = (text, {starts}, line) => text[starts[line] + 6] === " " ? numberAt(text, starts[line] + 7) : 1;

// The item with this number, from 0, among those that were stored.
export function itemNumbered(text, lines, number) {
  let line = 1, past = lines.count;
  while (line < past) {
    const middle = (line + past) >> 1;
    if (lines.stored[middle] > number) past = middle;
    else line = middle + 1;
  }
  return itemsOf(text, lines, lines.mates[line])[number - lines.stored[line - 1]];
}

// The next line after this one that names an item, or, with `by` -1, the last one before it; 0 if there is none.
export function lineNaming(text, {starts, count}, item, line, by) {
  const words = ` ${item}`, names = /^(?:P put|C item|C some) /;
  let at = by > 0 ? starts[Math.min(line + 1, count + 1)] : starts[line] - 1;
  while ((at = by > 0 ? text.indexOf(words, at) : at < 0 ? -1 : text.lastIndexOf(words, at)) >= 0) {
    const begin = text.lastIndexOf("\n", at) + 1, behind = text[at + words.length];
    if ((behind === " " || behind === "\n" || behind === undefined) && names.test(text.slice(begin, begin + 7)))
      return lineFrom(starts, count, begin);
    at += by;
  }
  return 0;
}

// The line that begins here.
function lineFrom(starts, count, begin) {
  let line = 1, past = count;
  while (line < past) {
    const middle = (line + past) >> 1;
    if (starts[middle] >= begin) past = middle;
    else line = middle + 1;
  }
  return line;
}

// A line, without its line feed.
export const lineIn = (text, {starts}, line) => text.slice(starts[line], starts[line + 1]).replace(/\n$/, "");

// The call that begins in this line: {side, kind, begin, end, reply, items, offered, wanted, asks, says}. The places `begin` and `end` are
// 0 for line 2, and `end` is Infinity if no line ends it; `asks` and `says` are the words of its two lines.
function callAt(text, lines, line) {
  const [side, ...asks] = lineIn(text, lines, line).split(" "), [kind, ...given] = asks, end = lines.mates[line];
  const [, ...says] = end ? lineIn(text, lines, end).split(" ") : [], [reply = "", ...got] = says;
  const hasItems = side === "P" ? reply === "stored" || reply === "some" : reply === "item" || reply === "some";
  const items = !hasItems ? [] : side === "P" ? given.slice(0, Number(got[0] ?? given.length)) : got;
  return {side, kind, begin: line - 2, end: end ? end - 2 : Infinity, reply, items, offered: kind === "put" ? given : [],
    wanted: kind === "take" ? BigInt(given[0] ?? 1) : 0, asks: asks.join(" "), says: says.join(" ")};
}

// The calls that begin in the lines from `first` to `last`, and those of each side that are under way before them.
export function callsWithin(text, lines, first, last) {
  const begun = [], isBegun = line => line > 1 && isBegin(text, lines.starts[line]);
  for (const side of "PC") {
    const line = lastOf(text, lines, side, first - 1);
    if (isBegun(line)) begun.push(line);
  }
  for (let line = first; line <= last; line++) if (isBegun(line)) begun.push(line);
  return begun.map(line => callAt(text, lines, line));
}

// The calls of a recording as far as `until`, a place, for an order of their operations: one that has not ended there may have put all
// that it offers, or have taken what is next. Those after the line `start`, at which no call is under way, come after calls that put what
// is inside there.
export function callsFor(text, lines, until, start = 1) {
  const those = callsWithin(text, lines, start + 1, Math.min(lines.count, until + 1)).filter(it => it.begin < until);
  const all =
    [...callsBefore(text, lines, start), ...those.map(it => it.end < until ? it : {...it, end: Infinity, reply: "", items: it.offered})];
  const of = side => all.filter(it => it.side === side).flatMap(it => it.items), next = of("P").slice(of("C").length);
  return all.map(it => it.kind === "take" && it.end === Infinity ? {...it, items: next.slice(0, Number(it.wanted))} : it);
}

// Calls that leave the queue as it is at this line: a put of the items inside, and a close if one has ended.
function callsBefore(text, lines, start) {
  const count = lines.stored[start] - lines.taken[start],
    items = Array.from({length: count}, (_, i) => itemNumbered(text, lines, lines.taken[start] + i));
  const call = (kind, reply, begin) => ({
    side: "P",
    kind,
    reply,
    begin: start + begin,
    end: start + begin + 1,
    items: kind === "put" ? items : [],
    offered: kind === "put" ? items : [],
    wanted: 0,
    isBefore: true
  });
  return [...count ? [call("put", "stored", -8)] : [], ...lines.closedAt && lines.closedAt <= start ? [call("close", "closed", -6)] : []];
}

const FARTHEST = 1500, MOST_BEFORE = 1000; // lines from a stretch to its start; items inside there

// A line before this one at which no call is under way and few items are inside, or 0 if there is none near.
export function startBefore(text, lines, line) {
  const isQuiet = at => ["P", "C"].every(side => !isUnderWay(text, lines, side, at)) && lines.stored[at] - lines.taken[at] <= MOST_BEFORE;
  for (let at = Math.max(1, line), last = Math.max(1, line - FARTHEST); at >= last; at--) if (isQuiet(at)) return at;
  return 0;
}

// From how many items on a queue of this first line, with its word `cut` or without, may report full, and how many it holds at most.
export function capacityIn(text) {
  const [, ...given] = text.slice(0, text.indexOf("\n")).replace(/^cut /, "").split(" "), full = given[0] ?? Infinity,
    most = given.at(-1) ?? Infinity;
  return {full, most};
}

// What a line is: its words, and the line of the same call.
export function lineWords(text, lines, line) {
  const words = `line ${line}: ${lineIn(text, lines, line)}`, mate = lines.mates[line];
  if (line === 1 || !mate) return words;
  return mate < line ? `${words}, the end of the call of line ${mate}` : words;
}

// What is said about a recording whose first line has that word, beside its verdict.
export const CUT = "cut: later calls are missing";

// The report on a recording, as the command prints it: [name, value, what it counts]; `isCut` if later calls are missing.
export const reportRows = ({calls, stored, taken, full, empty, nothing, told, surely, perhaps, overlapped, open},
  isCut) => [["calls", calls, "calls that have begun"], ["stored", stored, "items, by puts that have ended"],
  ["taken", taken, "items, by takes that have ended"], ["full", full, "puts that ended full, short or stored in part for want of room"],
  ["empty", empty, "takes that ended empty or short"], ["nothing", nothing, "calls that ended with nothing"],
  ["told", told ? "yes" : "no", "whether a take returned Closed"],
  ["inside", `${surely} ${perhaps}`, "the most items surely inside at some moment, and the most that can have been"],
  ["overlapped", overlapped, "calls that overlapped one of the other side"], ["open", open, "calls under way at the end"],
  ...isCut ? [["cut", "yes", "calls after the last line are missing: a log was full"]] : []];
