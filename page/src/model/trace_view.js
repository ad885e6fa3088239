// A trace, by what the proved module says about it: its verdicts, its picture, what a step is. Its lines are numbered; the shape's is the
// first.

import { MOST_CALLED, callsOf, callsUntil } from "../text/calls.js";
import { effectsOfRun } from "./orders.js";
import { breakOf, dueOf, ringVerdict, uncalledOf, whyOf } from "./verdicts.js";
import { picture } from "../draw/picture.js";

// What an event is, and what the module says about the moment just after it, if `isTold`.
export function stepWords({side, act, bit, value, held, overlapped, clashes}, where, isTold) {
  const words = `${where}: ${side} ${act} ${bit}${value === undefined ? "" : ` ${value}`}`;
  if (!isTold) return words;
  if (act === "got") {
    const why =
      overlapped ? ", and a write overlaps the read: any answer is permitted" : `, no write overlaps the read: ${bit} holds ${held}`;
    return words + why;
  }
  if (clashes) return `${words}, while a ${act === "read" ? "write" : "read"} of ${bit} is open`;
  return act === "wrote" ? `${words}, ${bit} holds ${held}` : words;
}

// Whether a trace shows a ring: one whose first event is of no program shows bits alone, and so do its beginnings.
const showsRing = ({programs}) => programs.isRun || programs.place > 0;

// The picture of a history of bits.
export const drawingOf = (whole, it, waves) => ({
  draw: picture,
  ...it,
  why: it.found?.cause ? it.found.words : it.why,
  whole: whole.events,
  wholeFault: whole.place ?? null,
  wholeBroken: whole.script ? null : breakOf(whole),
  waves,
  calls: callsUntil(whole.calls, it.events.length),
  hasCalls: whole.calls.length > 0,
  order: whole.order,
  roundAt: whole.roundAt,
});

// The calls of the first `count` events of a trace, which are of the programs.
export const callsIn = (module, text, events, count) =>
  events.length > MOST_CALLED || count === 0 ? [] : callsOf(events, module.moments(text, count));

export const traceView = module => ({
  read(text) {
    const it = module.audit(text);
    if (it.refused) return it;
    const calls = callsIn(module, text, it.events, it.programs.isRun ? it.events.length : it.programs.place);
    return {...it, text, calls, order: effectsOfRun(calls, it.shape, module.order)};
  },
  most: whole => whole.events.length,
  first: whole => whole.events.length,
  // A beginning of a trace is a trace of its own, and its verdict is asked for.
  at(whole, shown) {
    let past = whole.text.indexOf("\n");
    for (let line = 0; line < shown; line++) past = whole.text.indexOf("\n", past + 1);
    const it = shown < whole.events.length ? module.audit(whole.text.slice(0, past + 1)) : whole;
    const broken = breakOf(it), line = Math.min(it.place ?? Infinity, broken ?? Infinity) + 2;
    return {
      ...it,
      words: `bits: ${it.words}`,
      why: whyOf(it),
      ring: ringVerdict(showsRing(whole) ? it.programs : whole.programs),
      due: dueOf(it),
      uncalled: uncalledOf(whole, broken),
      fault: it.place,
      broken,
      mood: it.place === null ? "good" : "bad",
      line: line === Infinity ? 0 : line,
      step: shown ? stepWords(it.events[shown - 1], `line ${shown + 1}`, it.place === null || shown - 1 < it.place) : "",
    };
  },
  drawing: drawingOf,
  place: (whole, shown) => `line ${shown + 1} / ${whole.events.length + 1}`,
  rows: () => [],
});
