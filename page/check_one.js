// Judges one hand-in for page/check, which runs this in a process of its own. Standard input has JSON, {exercise, text, bounds}; the answer is a line of JSON,
// {isMet, lines, bound, missed} or {wrong}. The text of the student runs in a context of node:vm of its own, and no object crosses between that and this:
// what goes in is text and numbers, what comes out is text, and it is read here as data. node:vm is not a security boundary: see
// page/README.md.
import { readFileSync, writeSync } from "node:fs";
import { Script, createContext } from "node:vm";
import { recordingOf } from "./src/lab/explorer.js";
import { boundWords, judged } from "./src/lab/exercises.js";
import { Wrong } from "./src/lab/procedures.js";

const MOST_WORDS = 300; // of an error

// This function runs in the context, before the text of the student: it keeps what it needs of the language, calls the student's procedures, and returns text.
// It neither iterates nor builds on a prototype, since the student's text may have changed both.
function inside(mostWords) {
  "use strict";
  const {parse, stringify} = JSON, {apply} = Reflect, string = String, slice = String.prototype.slice, global = globalThis;
  // What takes memory that the limit of the process does not count, or waits.
  for (const name of ["ArrayBuffer", "SharedArrayBuffer", "DataView", "Atomics", "WebAssembly", "console", "Int8Array", "Uint8Array", "Uint8ClampedArray",
                      "Int16Array", "Uint16Array", "Int32Array", "Uint32Array", "Float32Array", "Float64Array", "BigInt64Array", "BigUint64Array"]) delete global[name];
  const text = value => stringify(value) ?? "null";
  const thrown = error => {
    let words = "something that has no words";
    try {
      words = error !== null && typeof error === "object" && error.name !== undefined ? `${string(error.name)}: ${string(error.message)}` : string(error);
    } catch {
      // it has none
    }
    return `{"thrown":${stringify(apply(slice, string(words), [0, mostWords]))}}`;
  };
  const guarded = call => (a, b, c, d) => {
    try {
      return call(a, b, c, d);
    } catch (error) {
      return thrown(error);
    }
  };
  let form = null, my = null, run = null;
  const taken = step => {
    const {done, value} = step, isDone = !!done;
    // What is returned is a number, or else not a value of a register.
    return `{"done":${isDone},"value":${isDone && typeof value !== "number" ? "null" : text(value)},"my":${text(my)}}`;
  };
  return {
    thrown: guarded(error => thrown(error)),
    // Takes the construction; returns its data.
    take: guarded(it => {
      if (it === null || typeof it !== "object") return '{"form":null}';
      const {values, first, readers, registers, memory, write, read} = it;
      form = {__proto__: null, values, first, readers, registers, memory, write, read};
      let fields = `"isWrite":${typeof write === "function"},"isRead":${typeof read === "function"}`;
      if (values !== undefined) fields += `,"values":${text(values)}`;
      if (first !== undefined) fields += `,"first":${text(first)}`;
      if (readers !== undefined) fields += `,"readers":${text(readers)}`;
      if (registers !== undefined) fields += `,"registers":${text(registers)}`;
      if (memory !== undefined) fields += `,"memory":${text(memory)}`;
      return `{"form":{${fields}}}`;
    }),
    // Begins an operation, given the value of a write or the reader of a read, and the memory as text. Returns whether there is a generator.
    begin: guarded((isRead, value, memory) => {
      my = parse(memory);
      run = isRead ? apply(form.read, form, [my, value]) : apply(form.write, form, [value, my]);
      return `{"isGenerator":${run !== null && run !== undefined && typeof run.next === "function"}}`;
    }),
    // Continues to the next access or to the end, with the answer as text; "" means none.
    next: guarded(answer => taken(answer === "" ? run.next() : run.next(parse(answer)))),
    read: name => ({does: "read", name}),
    write: (name, value) => ({does: "write", name, value}),
  };
}

// The text that a call into the context returned; anything else that it may return or throw is not touched.
function answerOf(call, ...given) {
  let said = null;
  try {
    said = call(...given);
  } catch {
    // out of stack, for example
  }
  if (typeof said !== "string") throw new Wrong("the construction broke off");
  const it = JSON.parse(said);
  if (it.thrown !== undefined) throw new Wrong(`it throws ${it.thrown}`);
  return it;
}

// Makes an object or a list hold what another one holds.
function fill(old, now) {
  if (old === null || typeof old !== "object") return;
  if (now === null || typeof now !== "object" || Array.isArray(old) !== Array.isArray(now)) throw new Wrong("`my` is plain data");
  if (Array.isArray(old)) old.length = 0;
  for (const name of Object.keys(old)) delete old[name];
  for (const [name, value] of Object.entries(now)) Object.defineProperty(old, name, {value, writable: true, enumerable: true, configurable: true});
}

// The construction in a text, with procedures that run in its context.
function constructionOf(text) {
  const context = createContext({__proto__: null}, {codeGeneration: {strings: false, wasm: false}});
  const its = new Script(`(${inside})(${MOST_WORDS})`).runInContext(context);
  new Script("its => { globalThis.read = its.read; globalThis.write = its.write; }").runInContext(context)(its);
  let script;
  try {
    script = new Script(text, {filename: "line"});
  } catch (error) {
    throw new Wrong(error instanceof SyntaxError ? `${error.stack.split("\n")[0].replace(/^line:/, "line ")}: ${error.message}` : "it is no script");
  }
  let isThrown = false, came;
  try {
    came = script.runInContext(context, {displayErrors: false});
  } catch (error) {
    isThrown = true;
    came = error;
  }
  const {form} = answerOf(isThrown ? its.thrown : its.take, came);
  if (form === null) return null;
  const run = (isRead, value, my) => {
    if (!answerOf(its.begin, isRead, value, JSON.stringify(my)).isGenerator) return null;
    let isBegun = false;
    return {next(answer) {
      const step = answerOf(its.next, isBegun ? JSON.stringify(answer) ?? "null" : "");
      isBegun = true;
      fill(my, step.my);
      return {done: step.done, value: step.value};
    }};
  };
  const {isWrite, isRead, ...data} = form;
  return {
    ...data,
    ...isWrite && {write: (value, my) => run(false, value, my)},
    ...isRead && {read: (my, reader) => run(true, reader, my)},
  };
}

function answer({exercise, text, bounds}) {
  const {isMet, lines, found} = judged(exercise, constructionOf(text), bounds), {states, milliseconds, isWhole, form} = found;
  const missed = Object.entries(found.found).flatMap(([name, it]) => it ? [[name, {steps: it.steps, recording: recordingOf(form, it.events)}]] : []);
  return {isMet, lines, bound: {words: boundWords({...exercise.needs, ...form}), states, isWhole, milliseconds}, missed: Object.fromEntries(missed)};
}

const given = JSON.parse(readFileSync(0, "utf8"));
let said;
try {
  said = answer(given);
} catch (error) {
  said = {wrong: error instanceof Wrong ? error.message : `page/check_one.js: ${error?.stack ?? error}`};
}
for (let left = Buffer.from(`${JSON.stringify(said)}\n`); left.length;) left = left.subarray(writeSync(1, left));
process.exit(0); // before anything that the text left to be done later
