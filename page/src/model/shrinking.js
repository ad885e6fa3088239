// A small recording with the fault of a larger one, sought as record/shrink seeks it: items are left out, each from its put and its take,
// and calls that passed none; and calls that overlapped come one after the other. A step is kept only if the module finds a fault with the
// same words, numbers aside, in the line that was at fault, which is then the last one.

import { itemsOf, lineIn, wantedAt } from "../text/recorded_lines.js";

const PLACES = 2 ** 24; // more than the items of a line
const NEAREST = 32; // lines before the fault that are tried first

export const withoutNumbers = words => words.replace(/\d+/g, "N");

// For a call that begins at this line: the number of an item that did not pass, at this place, or of what the call is without items.
const otherNumber = (line, at) => -(line * PLACES + at + 1);
const lineOfOther = number => Math.floor((-number - 1) / PLACES);

// The numbers of the items that a call stored, or offers while it is under way, or took; and all of its numbers.
const passedOf = it => it.kind === "put" ? it.numbers.slice(0, it.stored) : it.numbers;
const allOf = it => it.own === null ? it.numbers : [...it.numbers, it.own];

// What is left of a call if these numbers are kept: its lines {line, words}. Unless it is whole, a take asks for as few as it can for the
// same answer.
function linesLeft(call, kept, isWhole) {
  const items = call.items.filter((_, i) => kept.has(call.numbers[i])), {side, kind, answer} = call;
  let asks = `${side} ${kind}`, says = `${side} ${answer}`;
  if (kind === "put") {
    const stored = call.numbers.slice(0, call.stored).filter(it => kept.has(it)).length;
    if (!items.length || call.stored && !stored || answer === "short" && items.length === 1) return [];
    asks += ` ${items.join(" ")}`;
    if (answer === "some" || answer === "stored" && stored < items.length) says += ` ${stored}`;
  } else {
    if (!items.length && (call.items.length || !kept.has(call.own))) return [];
    const least = answer === "short" ? 2 : 1, more = isWhole ? call.more : Math.min(call.more, least),
      wants = items.length + (kept.has(call.own) ? more : 0);
    if (kind === "take" && wants > 1) asks += ` ${wants}`;
    if (items.length) says += ` ${items.join(" ")}`;
  }
  return [{line: call.begin, words: asks}, ...call.end ? [{line: call.end, words: says}] : []];
}

// The place of the last of these sorted numbers that is not above another, or -1.
function lastNotAbove(count, numberAt, number) {
  let low = 0, high = count;
  while (low < high) {
    const middle = (low + high) >> 1;
    if (numberAt(middle) > number) high = middle;
    else low = middle + 1;
  }
  return low - 1;
}

// The calls of a recording up to the line at fault, made as they are asked for. Up to there the item that was taken as number k, from 0 on,
// is the one that was stored as number k. What else needs a number has one below 0.
function historyOf(text, lines, fault) {
  const begins = {P: [], C: []}, made = new Map(), passed = {P: lines.stored, C: lines.taken};
  for (let line = 2; line <= fault; line++)
    if (lines.mates[line] === 0 || lines.mates[line] > line) begins[text[lines.starts[line]]].push(line);
  const endOf = line => lines.mates[line] <= fault ? lines.mates[line] : 0;
  const beforeOf = (side, line) => passed[side][line - 1];
  const first = lines.taken[fault - 1];

  const make = (side, begin) => {
    const [, kind] = lineIn(text, lines, begin).split(" "), end = endOf(begin),
      [, answer = "", ...got] = end ? lineIn(text, lines, end).split(" ") : [];
    const before = beforeOf(side, begin), call = {side, kind, begin, end, answer, items: [], numbers: [], own: null, stored: 0, more: 0};
    if (kind === "put") {
      call.items = itemsOf(text, lines, begin);
      call.stored = !end ? call.items.length : answer === "stored" || answer === "some" ? Number(got[0] ?? call.items.length) : 0;
      const isClosed = lines.closedAt && lines.closedAt < begin,
        may = isClosed     ? 0
        : end && end !== fault ? call.stored
                           : call.items.length;
      call.numbers = call.items.map((_, at) => at < may ? before + at : otherNumber(begin, at));
      return call;
    }
    call.items = answer === "item" || answer === "some" ? got : [];
    call.own = otherNumber(begin, call.items.length);
    call.more = (kind === "take" ? wantedAt(text, lines, begin) : 1) - call.items.length;
    call.numbers = call.items.map((_, at) => before + at);
    if (end === fault) {
      // from the first item on that is not the next one they are others
      const right = call.items.findIndex((item, at) => !(before + at < past && itemOf(before + at) === item));
      if (right >= 0) call.numbers = call.numbers.map((it, at) => at < right ? it : otherNumber(begin, at));
    }
    return call;
  };
  const callOf = (side, at) => {
    const begin = begins[side][at];
    if (begin === undefined) return null;
    if (!made.has(begin)) made.set(begin, make(side, begin));
    return made.get(begin);
  };
  const placeOf = (side, number) => lastNotAbove(begins[side].length, at => beforeOf(side, begins[side][at]), number);
  const itemOf = number => {
    const put = callOf("P", Math.max(placeOf("P", number), 0));
    return put?.items[number - put.numbers[0]];
  };
  const lastPut = callOf("P", begins.P.length - 1), past = Math.max(lines.stored[fault - 1], ...(lastPut?.numbers ?? []).map(it => it + 1));
  const callAtLine = line => {
    const side = text[lines.starts[line]];
    return callOf(side, lastNotAbove(begins[side].length, at => begins[side][at], line));
  };
  // The calls of a number.
  const callsOf = number => number < 0 ? [callAtLine(lineOfOther(number))] : ["P",
    "C"].map(side => callOf(side, placeOf(side, number))).filter(it => it?.numbers.length && it.numbers[number - it.numbers[0]] === number);
  const inside = Array.from({length: Math.max(0, past - first)}, (_, i) => first + i);
  const last = callAtLine(fault);

  return {
    last,
    inside,
    callAtLine,
    itemOf,
    closedAt: lines.closedAt && lines.closedAt < fault ? lines.closedAt : 0,
    underWay: ["P", "C"].map(side => callOf(side, begins[side].length - 1)).filter(it => it && !it.end),
    since: line => ["P", "C"].flatMap(side => {
      const at = lastNotAbove(begins[side].length, at => begins[side][at], line - 1) + 1;
      return begins[side].slice(at).map((_, i) => callOf(side, at + i));
    }),
    left: (kept,
      isWhole) => [...new Set([...kept].flatMap(callsOf))].flatMap(it => linesLeft(it, kept, isWhole)).sort((a, b) => a.line - b.line),
    // Among the items that were stored and are inside, one more than there may be, in as few calls as possible.
    tooMany(most) {
      const taken = new Set(last.kind === "take" ? last.numbers : []), puts = [];
      for (let at = Math.max(placeOf("P", first), 0); at < begins.P.length; at++) {
        const put = callOf("P", at), numbers = put.end ? passedOf(put).filter(it => it >= first && it < past && !taken.has(it)) : [];
        if (numbers.length) puts.push(numbers);
      }
      const numbers = [...puts.slice(-1), ...puts.slice(0, -1).sort((a, b) => b.length - a.length)].flat();
      return new Set([...numbers.slice(0, most + 1), ...last.kind === "take" ? [...last.numbers.slice(0, 1), last.own] : []]);
    }
  };
}

// Sets of numbers, of which one may have the fault with these words: small ones first, all in the end.
function* guesses(history, words, fault) {
  const {last, inside} = history, kept = new Set(allOf(last)), add = numbers => numbers.forEach(it => kept.add(it));
  yield new Set(kept);
  for (const [, line] of words.matchAll(/line (\d+)/g)) {
    const call = history.callAtLine(Number(line));
    if (call) add(passedOf(call).length ? passedOf(call) : allOf(call));
  }
  yield new Set(kept);
  add(inside.slice(0, 2));
  if (history.closedAt) add(allOf(history.callAtLine(history.closedAt)));
  const [, item] = /^item (\d+), but item/.exec(words) ?? [];
  if (item) add(inside.filter(number => history.itemOf(number) === item).slice(0, 1));
  yield new Set(kept);
  history.underWay.forEach(it => add(allOf(it)));
  yield new Set(kept);
  for (let near = NEAREST; near < 8 * fault; near *= 4) {
    const calls = history.since(fault - near);
    yield new Set([...kept, ...calls.flatMap(passedOf)]);
    yield new Set([...kept, ...calls.flatMap(allOf)]);
  }
}

// The smallest recording that is found with the fault that is `found` in this one before `isOver`: {text, words, isWhole}; `show` is called
// with each smaller one.
export function shrunk(module, text, lines, found, isOver, show) {
  const head = lineIn(text, lines, 1), fault = found.line, words = withoutNumbers(found.cause),
    whole = text.slice(0, lines.starts[fault + 1]);
  let best = null, isSpent = false;
  const textOf = left => `${[head, ...left.map(it => it.words)].join("\n")}\n`;
  // Whether these lines have the fault, in the last one, which is the one that was at fault; then they are what is left so far.
  const isSame = left => {
    if (isSpent || left.at(-1)?.line !== fault) return false;
    if (isOver()) {
      isSpent = true;
      return false;
    }
    const it = module.calls(textOf(left));
    if (it.line !== left.length + 1 || withoutNumbers(it.cause) !== words) return false;
    best = {left, found: it};
    show(left.length + 1);
    return true;
  };
  if (words === "out of turn") {
    const side = text[lines.starts[fault]], own = [];
    for (let line = fault; line > 1 && own.length < 2; line--)
      if (text[lines.starts[line]] === side) own.unshift({line, words: lineIn(text, lines, line)});
    if (!isSame(own.slice(-1))) isSame(own);
  } else shrinkCalls();
  return best ? {text: textOf(best.left), words: best.found.words, lines: best.left.length + 1, isSpent}
              : {text: whole, words: found.words, lines: fault, isSpent};

  function shrinkCalls() {
    const history = historyOf(text, lines, fault), most = Number(head.split(" ").at(-1));
    if (words.includes("at least") && isSame(history.left(history.tooMany(most), false))) return;
    for (const isWhole of [false, true]) {
      for (const kept of guesses(history, found.cause, fault)) {
        if (!isSame(history.left(kept, isWhole))) continue;
        leaveOut([...kept].sort((a, b) => a - b), units => isSame(history.left(new Set(units), isWhole)));
        return tellApart();
      }
    }
  }

  // Calls that overlap, the last one first: the end right after the start, else the start right before the end.
  function tellApart() {
    const begins = {}, calls = [];
    for (const it of best.left) {
      const [side, word] = it.words.split(" ");
      if (/^(?:put|take|close)$/.test(word)) begins[side] = it;
      else calls.push([begins[side], it]);
    }
    for (const [begin, end] of calls.reverse()) {
      const {left} = best, at = left.indexOf(begin), to = left.indexOf(end), before = left.slice(0, at), between = left.slice(at + 1, to),
        behind = left.slice(to + 1);
      if (!between.length || behind.length && isSame([...before, begin, end, ...between, ...behind])) continue;
      isSame([...before, ...between, begin, end, ...behind]);
    }
  }
}

// Leaves out as many of the units as it can, first half of them at once, then fewer and fewer. What is left has the fault already.
function leaveOut(units, isGood) {
  for (let size = units.length >> 1; size > 0;) {
    let isLess = false;
    for (let at = 0; at < units.length;) {
      const fewer = [...units.slice(0, at), ...units.slice(at + size)];
      if (isGood(fewer)) {
        units = fewer;
        isLess = true;
      } else at += size;
    }
    if (size > 1 || !isLess) size >>= 1;
  }
}
