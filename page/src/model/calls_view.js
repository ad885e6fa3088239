// Recorded calls, by what the proved module says about them: their verdict and report, their picture. Their lines are numbered; the queue's
// is the first.

import { MOST_CALLED } from "../text/calls.js";
import { effectsOf } from "./orders.js";
import { MOST_REPORTED, recordingFound } from "./recording.js";
import { bars } from "../draw/bars.js";
import { CUT, callsFor, capacityIn, lineWords, reportRows, startBefore } from "../text/recorded_lines.js";

const ROUND = 250; // lines before and after the cursor of which an order is sought

export function callsView(module) {
  // The places at which the operations of recorded calls take effect, around a line in a long recording, and from which place on; nothing
  // if no order is found.
  function orderRound({text, lines, line: fault}, line) {
    const isShort = lines.count <= MOST_CALLED, near = Math.min(line, fault || lines.count),
      start = isShort ? 1 : startBefore(text, lines, near - ROUND);
    const until = Math.min((fault || lines.count + 1) - 2, isShort ? Infinity : near + ROUND);
    return {order: start ? effectsOf(callsFor(text, lines, until, start), capacityIn(text), module.order) : [], ordered: start - 1};
  }

  const reportAt = ({text, lines}, line) => module.calls(text, lines.starts[line + 1]).report;
  const ordered = whole => !whole.refused && whole.lines.count <= MOST_CALLED ? {...whole, ...orderRound(whole, whole.lines.count)} : whole;

  return {
    read: text => ordered(recordingFound(module, text)),
    fromWorker: (found, text) => ordered(found.refused ? found : {...found, text}),
    most: whole => whole.lines.count - 1,
    // It opens at the line at fault.
    first: whole => (whole.line || whole.lines.count) - 1,
    // What is found about a beginning is what is found about the whole if the line at fault is in it, and otherwise it is lawful (law
    // `beginning_is_linearizable`); its report is asked for, a little later if the recording is long.
    at(whole, shown) {
      const {text, lines} = whole, isFaulty = whole.line > 0 && whole.line <= shown + 1;
      const it = isFaulty ? whole : {...whole, words: "lawful", cause: "", line: 0, against: 0};
      const why = it.against ? `contradicted by ${lineWords(text, lines, it.against)}` : "",
        isAll = !whole.line && shown === lines.count - 1;
      const report = isFaulty ? whole.before : isAll ? whole.report : lines.count <= MOST_REPORTED ? reportAt(whole, shown + 1) : null;
      return {
        ...it, words: `calls: ${it.words}`, ring: it.isCut ? {words: CUT, mood: "dim"} : null, why, mood: it.line ? "bad" : "good",
        step: shown ? lineWords(text, lines, shown + 1) : "", report, ...lines.count <= MOST_CALLED ? {} : orderRound(whole, shown + 1),
      };
    },
    drawing: ({text, lines}, it, waves, shown) => ({
      draw: bars,
      text,
      lines,
      order: it.order,
      ordered: it.ordered,
      words: it.words,
      mood: it.mood,
      ring: it.ring,
      why: it.why,
      count: shown,
      fault: it.line ? it.line - 2 : null,
      contradicts: it.against ? it.against - 2 : null,
      cause: it.cause,
    }),
    place: (whole, shown) => `line ${shown + 1} / ${whole.lines.count}`,
    rows: ({report, isCut}) => report && reportRows(report, isCut),
    of: ({line}) => line ? `before line ${line}` : "",
  };
}
