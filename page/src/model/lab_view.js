// A construction of a register, by what the explorer found about it and the proved module says about each history: the strongest class that
// no history missed, up to the bound, and for each class that is missed, a shortest history.

import { history } from "../draw/history.js";
import { KINDS_OF_REGISTERS } from "../lab/procedures.js";
import { linesAgainst } from "./misses.js";


const NONE_MISSED = "No history within the bound misses a class, so none is drawn.";

const plural = (count, word) => `${count.toLocaleString("en")} ${word}${count === 1 ? "" : "s"}`;

// The words of a number of histories.
export function countWords(count) {
  for (const [word, power] of [["trillion", 12], ["billion", 9], ["million", 6]])
    if (count >= 10 ** power && count < 10 ** 15) return `${Number((count / 10 ** power).toPrecision(2))} ${word}`;
  return count < 10 ** 6 ? count.toLocaleString("en") : count.toExponential(1).replace(/e\+?(\d+)/, " × 10^$1");
}

// The words of the bound, without which no class is shown.
export function boundWords({bound: {writes, reads}, readers, states, isWhole, histories, misses, seconds}) {
  const each = readers > 1 ? ` of each of ${readers} readers` : "", many = plural(states, "state");
  const upTo = `up to ${plural(writes, "write")} and ${plural(reads, "read")}${each}`;
  if (!isWhole) return `${upTo}. Not all of them: it ended after ${many} and ${seconds.toFixed(0)} s, and the rest may miss more`;
  const counted = histories === null ? `each class is missed, as ${many} show` : `${countWords(histories)} histories in ${many}`;
  return `${upTo}: ${counted}${misses.some(it => it.class === "safe") ? "" : "; no larger bound is promised"}`;
}

// The history that is chosen, or else that of the weakest class that is missed.
const chosenOf = (misses, name) => misses.find(it => it.class === name) ?? misses[0] ?? null;

function foundWords({exploring, waits, differs, best, isWhole}) {
  if (exploring) return {words: exploring, mood: "dim"};
  if (waits) return {words: waits, mood: "waits"};
  if (differs) return {words: differs, mood: "refused"};
  return {words: `${best ?? "not safe"}${isWhole ? "" : ", so far"}`, mood: best === "atomic" && isWhole ? "good" : best ? "" : "bad"};
}

export const labView = {
  chosen: (whole, {missed, exercise}) => ({...whole, miss: chosenOf(whole.misses, missed || exercise?.needs.class)}),
  most: ({miss}) => miss?.steps ?? 0,
  first: ({miss}) => miss?.steps ?? 0,
  at(whole, shown) {
    const {miss, exploring, waits, differs} = whole, {words, mood} = foundWords(whole), isFound = !exploring && !waits && !differs;
    const fault = miss?.why ? miss.lineSteps[miss.why.line] : null, isAtFault = fault !== null && shown > fault;
    return {
      words, mood, line: 0, exploring, fault: isAtFault ? fault : null, bound: isFound ? boundWords(whole) : "",
      why: isAtFault && isFound ? `not ${miss.class}: ${miss.why.words}` : "",
      due: isFound && !miss ? NONE_MISSED : "", step: miss && shown ? `step ${shown}: ${miss.words[shown - 1]}` : "",
      recording: miss?.recording ?? "",
    };
  },
  drawing({miss, sides: all, registers}, it, waves, shown) {
    if (!miss) return null;
    const sides = all.filter((side, i) => i < 2 || miss.operations.some(of => of.side === side));
    const kinds = KINDS_OF_REGISTERS.map(kind => [kind, ...registers.filter(of => of.kind === kind).map(of => of.name)].join(" "))
      .filter(words => words.includes(" ")).join(", ");
    return {
      draw: history, sides, whole: miss.steps, count: shown, operations: miss.operations, accesses: miss.accesses, registers, waves,
      fault: it.fault, flag: `not ${miss.class}`,
      against: it.fault === null ? [] : linesAgainst(miss.why).map(line => miss.lineSteps[line]),
      head: `a shortest history that is not ${miss.class}: ${kinds}`, words: `not ${miss.class}`, mood: "bad", why: it.why,
      counted: "step", numberOf: place => place + 1, total: miss.steps,
    };
  },
  place: ({miss}, shown) => miss ? `step ${shown} / ${miss.steps}` : "",
  rows: () => [],
  misses: ({misses, miss, exploring}) =>
    exploring ? [] : misses.map(it => ({name: it.class, words: `not ${it.class}: ${plural(it.steps, "step")}`, isOn: it === miss})),
};
