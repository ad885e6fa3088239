// An order of the operations of calls: the place at which each takes effect. It is sought here; the module decides whether the operations
// of a queue can come in that order.

import { WORDS } from "../core/words.js";

// The module's numbers of operations.
export const DOES = {in: 17, "no room": 18, "found closed": 19, close: 20, out: 21, "found fewer": 22, "found drained": 23};

// The numbers in the line that ends a call: for a put that stored some, how many; for a take, its items.
const endNumbers = ({side, reply, items, offered = items}) =>
  side === "C" ? items : reply === "some" || reply === "stored" && items.length < offered.length ? [items.length] : [];

// The marks of the history of these calls, at a queue that holds at most `most` items: {marks, items, numbers} in the module's numbers,
// and the `effects` among them, {at, side, does, item, call}, each at its place between two events. A call is {side, kind, begin, end,
// reply, items, offered, wanted}; those of a side are in their order. An operation waits for the end of its call unless one of the other
// side needs it before; what a call did not find, it did not find when it began. That gives an order whenever there is one.
export function orderOf(calls, most) {
  const marks = [], numbers = [], items = [], effects = [], open = {P: null, C: null};
  let inside = 0, isClosed = false;
  const line = (side, word, its) => marks.push([WORDS.indexOf(`${side} ${word}`), numbers.push(...its) - its.length, its.length]);
  const effect = (side, at, does, value = 0, count = 0) => {
    marks.push([DOES[does], value, count]);
    effects.push({at, side, does, item: does === "in" || does === "out" ? value : null, call: open[side].call});
  };
  // The next item of a side's call goes in or out, and before it one of the other side's, if that is needed.
  const pass = (side, at) => {
    const it = open[side], isIn = side === "P";
    if (!it || it.passed === it.call.items.length) return false;
    if ((isIn ? inside === most : inside === 0) && !pass(isIn ? "C" : "P", at)) return false;
    const item = it.call.items[it.passed++];
    if (isIn) items.push(item);
    inside += isIn ? 1 : -1;
    effect(side, at, isIn ? "in" : "out", item);
    return true;
  };
  const close = at => {
    if (open.P?.call.kind === "close" && !open.P.isClosed) effect("P", at, "close");
    if (open.P) open.P.isClosed = isClosed = true;
  };
  const begin = (call, at) => {
    const {side, kind, items, offered = items, wanted = 1, reply} = call, all = side === "P" ? offered.length : wanted;
    open[side] = {call, passed: 0};
    line(side, kind, kind === "put" ? offered : kind === "take" && all > 1 ? [all] : []);
    const saysWhy =
      reply === "stored" || reply === "item"; // it has no more than its items, since there was no room for more, or no more was inside
    const lacked = reply === "full" || reply === "empty" ? 1
      : reply === "short"                                ? all
      : saysWhy && items.length < all                    ? items.length + 1
                                                         : 0;
    if (lacked) effect(side, at, side === "P" ? "no room" : "found fewer", 0, lacked);
  };
  const end = (call, at) => {
    const {side, kind, reply} = call;
    while (pass(side, at));
    if (kind === "close" || reply === "closed" && !isClosed) close(at);
    if (kind !== "close" && reply === "closed") effect(side, at, side === "P" ? "found closed" : "found drained");
    line(side, kind === "close" ? "closed" : reply, endNumbers(call));
    open[side] = null;
  };
  const come = calls.flatMap(call => [[call.begin, () => begin(call, call.begin + 0.5)], [call.end, () => end(call, call.end - 0.5)]]);
  for (const [place, comes] of come.sort(([a], [b]) => a - b)) if (place < Infinity) comes();
  return {marks, numbers, items, effects};
}

// The places at which the operations of calls take effect, at a queue that may report full from `full` items on and holds `most`, as the
// module confirms by its `order`; none if it does not. Those of calls that only replace what came before (recorded_lines.js) are left out.
export function effectsOf(calls, holds, order) {
  const it = orderOf(calls, Number(holds.most));
  return calls.length && order(it, holds) === it.marks.length ? it.effects.filter(({call}) => !call.isBefore) : [];
}

// The same for the calls of a run of a ring of this shape. A trace does not show what a put offered that stored nothing, nor how many items
// a take asked for that has fewer; and a take under way may have taken what is next.
export function effectsOfRun(calls, {capacity, take_batch}, order) {
  const itemsOf = call => call.reply ? call.items : call.begun ?? [], of = side => calls.filter(it => it.side === side).flatMap(itemsOf);
  const taken = of("C").length, next = of("P").slice(taken, taken + take_batch);
  const completed = calls.map(call => {
    const items = call.side === "C" && !call.reply && next.length ? next : itemsOf(call);
    return {...call, items, offered: items.length ? items : [0], wanted: Math.max(1, items.length)};
  });
  return effectsOf(completed, {full: capacity, most: capacity}, order);
}
