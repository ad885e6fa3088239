// What is found about a construction: at once if it was explored before, else by the lab's worker, and until then what was found before.
// A text that came by a link waits until the reader asks for it.

import { judgedFound, plainMet } from "./lab_found.js";

const REST = 500; // milliseconds after the last key, until a text is explored
const STATES = 300000, MILLISECONDS = 10000; // of one search
const MOST_TEXT = 20000, MOST_KEPT = 8; // characters of a text; results that are kept
export const MOST_BOUND = 20; // writes, and reads of a reader
const NO_ANSWER = `The text has not answered within ${MILLISECONDS / 1000 + 3} seconds, and was stopped: does something in it never end?`;
const WAITS = "This text came by a link, and has not run: it is code. Look at it, and run it if you trust it.";
const NO_WORKER = "This browser lets no worker run here: page/lab explores the text";

// The bound that a text names in the comments at its head, as `// 3 writes, 2 reads`, or else 2 and 2.
function boundIn(text) {
  const [, writes, reads] = /^\/\/ *(\d{1,2}) writes?, (\d{1,2}) reads?\b/m.exec(text) ?? [];
  const of = count => Math.min(MOST_BOUND, Number(count ?? 2));
  return {writes: of(writes), reads: of(reads)};
}

// The bound of a state: that of its exercise, the one that the reader chose, or that of the text.
export const boundOf = ({text, bound, exercise}) =>
  exercise ? {writes: exercise.needs.writes, reads: exercise.needs.reads} : bound ?? boundIn(text);

// A reader over the module and an asker (core/lab_asker.js). `show` is called when there is something new, `meanwhile` with words on what
// is under way. The result has `read`, for a state, and `stop`.
export function labReaderOf({module, asker, show, meanwhile}) {
  const kept = new Map(); // by its text and bound
  let timer = 0, last = null, under = ""; // what was found last; the key of what is under way

  const end = () => {
    clearTimeout(timer);
    asker.stop();
    under = "";
  };
  const keep = (key, it) => {
    kept.delete(key);
    kept.set(key, it);
    if (kept.size > MOST_KEPT) kept.delete(kept.keys().next().value);
  };
  const refusedBy = ({wrong, line, late, none}) => ({
    refused: late ? NO_ANSWER : none ? NO_WORKER : line ? `line ${line}: ${wrong}` : wrong,
    line: line ?? 0,
  });

  function explore(text, bound, exercise, key) {
    const began = performance.now(), bounds = {...bound, states: STATES, milliseconds: MILLISECONDS, all: false};
    asker.explore(text, {...bounds, ...exercise ? {exercise: exercise.asked} : {}}, answer => {
      under = "";
      const judged = answer.found === undefined ? null : judgedFound(module, answer.found);
      const seconds = (performance.now() - began) / 1000, met = plainMet(answer.met);
      const it = judged ? {text, bound, seconds, ...judged, misses: judged.misses ?? [], met} : {...refusedBy(answer), text, bound};
      if (!answer.late) keep(key, it);
      if (judged && !judged.differs) last = it;
      show(it);
    }, states => meanwhile(`exploring .. ${states.toLocaleString("en")} states, ${((performance.now() - began) / 1000).toFixed(1)} s`));
  }

  return {
    read(state) {
      const {text, example, isTrusted, exercise} = state, bound = boundOf(state);
      const key = [bound.writes, bound.reads, exercise?.file ?? "", text].join(" ");
      if (under === key) return {...last ?? {misses: []}, text, bound, exploring: "exploring .."};
      end();
      if (text.trim() === "") return {refused: "there is no text", line: 0, text, bound};
      if (text.length > MOST_TEXT) return {refused: `a construction has at most ${MOST_TEXT} characters here`, line: 0, text, bound};
      if (kept.has(key) && (example || isTrusted)) return kept.get(key);
      if (!example && !isTrusted) return {text, bound, waits: WAITS, misses: []};
      under = key;
      timer = setTimeout(() => explore(text, bound, exercise, key), example || last?.text === text ? 0 : REST);
      return {...last ?? {misses: []}, text, bound, exploring: "exploring .."};
    },
    stop: end,
    get isOn() { return under !== ""; },
  };
}
