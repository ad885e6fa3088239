// What the lab's worker posts, taken as plain data alone, and judged by the proved module: each history that is found misses its class,
// and each access in it is answered as its register's kind permits.

import { CLASSES } from "../lab/audit.js";
import { KINDS_OF_REGISTERS } from "../lab/procedures.js";
import { historyOf, recordingOfRegister } from "./lab_history.js";
import { missOf, rankOf } from "./misses.js";

const MOST_EVENTS = 20000, MOST_TEXT = 2000, MOST_REGISTERS = 100, MOST_VALUES = 64, MOST_LINES = 20;
const OF_OPERATION = ["write", "wrote", "read", "got"], OF_ACCESS = [...OF_OPERATION, "gives", "sets"];

const isCount = (it, least = 0, most = Number.MAX_SAFE_INTEGER) => Number.isInteger(it) && it >= least && it <= most;
const isText = it => typeof it === "string" && it.length <= MOST_TEXT;
const isObject = it => it !== null && typeof it === "object" && !Array.isArray(it);
const allOf = (it, most, isOne) => Array.isArray(it) && it.length <= most && it.every(isOne);
const sidesOf = readers => ["W", ...Array.from({length: readers}, (_, i) => `R${i + 1}`)];

const isRegister = it => isObject(it) && isText(it.name) && KINDS_OF_REGISTERS.includes(it.kind) && isText(it.first)
  && allOf(it.domain, MOST_VALUES, isText);

// Whether an event has one of the sides, and is of an operation or of an access of one of the registers of these names.
function isEvent(it, sides, names, values) {
  if (!isObject(it) || !sides.includes(it.side)) return false;
  const {side, does, register, value} = it, hasValue = does === "write" || does === "sets" || does === "got" || does === "gives";
  if (register !== undefined) return names.has(register) && OF_ACCESS.includes(does) && (isText(value) || !hasValue);
  if (!OF_OPERATION.includes(does) || (side === "W") !== (does === "write" || does === "wrote")) return false;
  if (does === "write") return isCount(value, 0, values - 1);
  return does === "got" ? value === null || Number.isSafeInteger(value) : value === undefined;
}

// A copy of one. (The start of a write says what its end wrote.)
const eventOf = ({side, does, register, value}) =>
  ({side, does, register, value: register !== undefined && does === "wrote" ? undefined : value});

// A copy of what was posted, if all of it is as it has to be; else null.
export function plainFound(it) {
  if (!isObject(it) || !isCount(it.values, 2, 16) || !isCount(it.first, 0, it.values - 1) || !isCount(it.readers, 1, 4)) return null;
  if (!allOf(it.registers, MOST_REGISTERS, isRegister) || !isObject(it.found)) return null;
  if (!isCount(it.states) || typeof it.isWhole !== "boolean" || !(it.histories === null || it.histories >= 0)) return null;
  const {values, first, readers, states, isWhole, histories} = it, names = new Set(it.registers.map(({name}) => name)), found = {};
  for (const name of CLASSES) {
    const its = it.found[name] ?? null;
    if (its !== null && !(isObject(its) && isCount(its.steps, 1, MOST_EVENTS)
      && allOf(its.events, MOST_EVENTS, event => isEvent(event, sidesOf(readers), names, values)))) return null;
    found[name] = its && {steps: its.steps, events: its.events.map(eventOf)};
  }
  const registers = it.registers.map(({name, kind, first, domain}) => ({name, kind, first, domain: [...domain]}));
  return {values, first, readers, registers, states, isWhole, histories: histories === null ? null : Number(histories), found};
}

// What was posted about an exercise, {isMet, lines}, if it is as it has to be; else null.
export function plainMet(it) {
  const isLine = line => isObject(line) && typeof line.is === "boolean" && isText(line.words);
  if (!isObject(it) || !allOf(it.lines, MOST_LINES, isLine)) return null;
  return {isMet: it.isMet === true && it.lines.every(line => line.is), lines: it.lines.map(({is, words}) => ({is, words}))};
}

// Why the proved audit does not find the same for a history, or "".
function differsIn({readers, registers}, {steps, events}, name, history, verdict) {
  if (!history || history.steps !== steps) return "it is no history";
  if (verdict.refused || verdict.line) return verdict.refused ?? verdict.words;
  if (rankOf(verdict.class) >= rankOf(name)) return `the proved audit finds it ${verdict.words}`;
  const wrong = registers.find(it => rankOf(it.verdict(sidesOf(readers), events)) < rankOf(it.kind));
  return wrong ? `the accesses of ${wrong.name} are not ${wrong.kind}` : "";
}

// What was found, as far as it can be shown: {.., best, misses}, with a history and its verdict for each class that is missed, the weakest
// first; or {differs}, in words. `best` is the strongest class that each of these histories has, or null.
export function judgedFound(module, given) {
  const found = plainFound(given), none = words => ({differs: words});
  if (!found) return none("what the worker of the text posted is nothing that an exploration finds");
  const registers = found.registers.map(it =>
    ({...it, verdict: (sides, events) => module.register(recordingOfRegister(it, sides, events)).class ?? null}));
  const misses = [];
  for (const name of CLASSES) {
    const its = found.found[name];
    if (!its) continue;
    const history = historyOf(found, its.events), verdict = history ? module.register(history.recording) : {};
    const differs = differsIn({...found, registers}, its, name, history, verdict);
    if (differs) return none(`The explorer and the proved audit differ on the history that is “not ${name}”: ${differs}.`);
    misses.push({class: name, ...history, verdict, why: missOf(verdict, name)});
  }
  // a history of a weaker class is shown once; with one reader, `atomic by reader` is not shown separately
  const own = misses.filter(it => found.readers > 1 || it.class !== "atomic by reader"),
    isTold = (it, place) => own.slice(0, place).some(other => other.recording === it.recording);
  const best = Math.min(CLASSES.length - 1, ...misses.flatMap(it => [rankOf(it.class) - 1, rankOf(it.verdict.class)]));
  return {...found, best: CLASSES[best] ?? null, sides: sidesOf(found.readers), misses: own.filter((it, place) => !isTold(it, place))};
}
