// In a worker of its own, before the text of a construction: takes from that text all of the browser but the language, explores what it
// gives, and posts what was found as plain data. The page takes none of it on trust.

import { judged } from "./lab/exercises.js";
import { explored } from "./lab/explorer.js";
import { Wrong, read, write } from "./lab/procedures.js";

const TICK = 100; // milliseconds between words on what is under way
const MOST_WORDS = 500; // characters of what is thrown
const MOST_LINES = 20; // of a stack

// What a text may use: the language, and its two accesses.
const LANGUAGE = new Set(`Object Function Array Number parseFloat parseInt Infinity NaN undefined Boolean String Symbol Date Promise RegExp
  Error AggregateError EvalError RangeError ReferenceError SyntaxError TypeError URIError globalThis JSON Math Intl ArrayBuffer Atomics
  SharedArrayBuffer Uint8Array Int8Array Uint16Array Int16Array Uint32Array Int32Array Float32Array Float64Array Uint8ClampedArray
  BigUint64Array BigInt64Array DataView Map BigInt Set WeakMap WeakSet WeakRef Proxy Reflect FinalizationRegistry Iterator decodeURI
  decodeURIComponent encodeURI encodeURIComponent escape unescape isFinite isNaN console performance self constructor`.split(/\s+/));

const post = globalThis.postMessage.bind(globalThis), {stringify} = JSON, now = performance.now.bind(performance);

// (Not all can be removed: no name is kept that is not in the list, except those that the browser lets nobody remove.)
for (let it = globalThis; it && it !== Object.prototype; it = Object.getPrototypeOf(it))
  for (const name of Object.getOwnPropertyNames(it)) if (!LANGUAGE.has(name)) Reflect.deleteProperty(it, name);

// A value as its text.
const textOf = value => value === undefined ? undefined : stringify(value) ?? "undefined";

function plainEvent({side, does, register, value}) {
  if (register !== undefined) return {side, does, register, value: textOf(value)};
  return {side, does, value: Number.isSafeInteger(value) ? value : does === "got" ? null : undefined}; // null: no value
}

function plainOf({best, found, states, isWhole, histories, form, milliseconds}) {
  const registers = Object.entries(form.registers).map(([name, {kind = "safe", first = 0, domain = [0, 1]}]) =>
    ({name, kind, first: textOf(first), domain: [...domain].map(textOf)}));
  const plain = it => it && {steps: it.steps, events: it.events.map(plainEvent)};
  return {
    best, states, isWhole, histories, milliseconds, values: form.values, first: form.first, readers: form.readers, registers,
    found: Object.fromEntries(Object.entries(found).map(([name, it]) => [name, plain(it)])),
  };
}

// What was thrown, in words, and the lines of this script that were under way, the innermost first.
function wrongOf(error) {
  const isError = error instanceof Error, name = isError && !(error instanceof Wrong) ? `${error.name}: ` : "";
  const words = `${name}${isError ? error.message : `${textOf(error)} was thrown`}`.slice(0, MOST_WORDS);
  const lines = isError ? [...String(error.stack).matchAll(/blob:[^\s()]*?:(\d+):\d+/g)].map(([, line]) => Number(line)) : [];
  return {wrong: words, lines: lines.slice(0, MOST_LINES)};
}

let isGiven = false, last = 0;

// Explores what `give` returns, once, and judges it if there is an exercise.
globalThis.construction = ({exercise, ...bounds}, give) => {
  if (isGiven) return;
  isGiven = true;
  try {
    const report = states => {
      if (now() - last < TICK) return;
      last = now();
      post({states});
    };
    const {found, isMet, lines} = exercise ? judged(exercise, give(), bounds, report) : {found: explored(give(), bounds, report)};
    post({found: plainOf(found), ...exercise ? {met: {isMet, lines}} : {}});
  } catch (error) {
    post(wrongOf(error));
  }
};
Object.assign(globalThis, {read, write});
