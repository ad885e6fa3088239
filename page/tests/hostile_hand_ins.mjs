// Malicious hand-ins for check.mjs: the name and text of each, and what page/check reports of it. Those that look for a way out of their context call
// `look` with each value that they get, and throw ESCAPED if one leads to node's `process`.
import { readFileSync } from "node:fs";

const textOf = name => readFileSync(new URL(`../constructions/${name}.js`, import.meta.url), "utf8").replace(/^\/\/.*\n/gm, "").trim();
const GOOD = textOf("unary_of_the_ring"), WRITE = "*write(value, my) {", READ = "*read() {";
const writes = words => GOOD.replace(WRITE, `${WRITE} ${words}`);

const LOOK = `const found = [];
const look = (what, it) => {
  const isOut = it => it.constructor.constructor("return process")().pid > 0;
  try { if (isOut(it)) found.push(what); } catch (error) { try { if (isOut(error)) found.push(what + ", by its error"); } catch {} }
};
const end = () => { if (found.length) throw new Error("ESCAPED by " + found); };
`;

export const LOOKING = Object.entries({
  constructors: `for (const it of [read, write, this, globalThis, read("b"), [1], function () {}]) look("a value", it); end();\n${GOOD}`,
  arguments: writes('look("my", my); look("my.held", my.held); look("this", this); look("registers", this.registers); look("arguments", arguments); end();')
    .replace(READ, '*read(my, reader) { look("my", my); look("this", this); look("reader", reader); look("a value", [reader]); end();'),
  answers: `const its = ${GOOD};\n({...its, read(...all) { look("all", all); const run = its.read(...all); return {get next() { look("this", this); end();\n`
    + `return function (answer) { look("answer", answer); look("arguments", arguments); look("this", this); end(); return run.next(answer); }; }}; }})`,
  callers: writes("(function f() { try { look('caller', f.caller); look('its caller', f.caller.caller); } catch {}"
    + " try { look('callee', arguments.callee.caller.caller); } catch {} })(); end();"),
  stacks: `Error.prepareStackTrace = (error, sites) => { look("sites", sites); for (const it of sites) for (const name of Object.getOwnPropertyNames(it.__proto__))\n`
    + "try { look('site', it); const got = it[name](); if (typeof got === 'object' || typeof got === 'function') look(name, got); } catch {} return ''; };\n"
    + writes("new Error('a').stack; const it = {}; Error.captureStackTrace(it); it.stack; try { null.x; } catch (e) { e.stack; look('e', e); } end();"),
  depth: `function deep() { try { return deep() + 1; } catch (error) { look("error", error); return 1; } }\n${writes("deep(); end();")}`,
  imports: `const it = import("node:fs"); look("promise", it); it.then(all => look("module", all), error => { look("error", error); end(); }); end();\n${GOOD}`,
  proxies: `new Proxy(${GOOD.slice(1, -1)}, {get(target, name, receiver) { look("receiver", receiver); look("this", this); end(); return target[name]; },\n`
    + "getPrototypeOf() { end(); return null; }, ownKeys(target) { end(); return Reflect.ownKeys(target); }})",
  getters: `Object.defineProperty(${GOOD}, "values", {get() { look("this", this); end(); return 3; }})`,
  symbols: `Object.prototype[Symbol.toPrimitive] = function () { look("this", this); end(); return "x"; };\n${GOOD}`,
}).map(([name, text]) => [name, LOOK + text, "met"]);

const MET = [
  ["iterators", writes("Array.prototype[Symbol.iterator] = function* () { throw new Error('iterated'); }; String.prototype[Symbol.iterator] = null;")],
  ["pollution", "for (const name of Object.getOwnPropertyNames(Array.prototype)) if (typeof [][name] === 'function' && name !== 'constructor') "
    + "Array.prototype[name] = () => { throw new Error(name); };\n"
    + "JSON.parse = JSON.stringify = () => 'x'; Object.keys = Object.entries = Object.fromEntries = () => []; Object.prototype.thrown = 'x';\n"
    + "Object.prototype.isMet = true; Reflect.apply = String.prototype.slice = Function.prototype.call = Function.prototype.apply = () => 'x';\n"
    + `Number.isInteger = () => true; Map.prototype.get = Map.prototype.set = () => 0; Object.prototype.is = false;\n${GOOD}`],
  ["later", `Promise.resolve().then(() => { for (;;); });\n${GOOD}`],
  ["nothing_of_node", `typeof process + typeof require + typeof Buffer + typeof setTimeout + typeof fetch === "undefined".repeat(5) ? ${GOOD} : null`],
].map(([name, text]) => [name, text, "met"]);

const NOT_MET = [
  ["pollution_of_a_wrong_one", "Array.prototype.find = Array.prototype.every = Number.isInteger = () => true; Object.prototype.isMet = true;\n"
    + `JSON.stringify = () => '{"isMet":true,"lines":[],"missed":{}}';\n${textOf("unary_always_written")}`, "regular: missed, in 7 steps"],
  ["as_json", `Object.prototype.toJSON = () => ({does: "read", name: "b0"});\n${GOOD}`, 'does: an object, as {kind: "safe", first: 0}'],
  ["throws_itself", "throw {get name() { throw this; }, get message() { throw this; }, toString() { throw this; }, [Symbol.toPrimitive]() { throw this; }}",
   "it throws something that has no words"],
  ["throws_a_proxy", "throw new Proxy(function () {}, {get() { throw 1; }, getPrototypeOf() { throw 2; }, apply() { throw 3; }})", "it throws something that has no words"],
  ["throws_a_symbol", "throw Symbol('a')", "it throws Symbol(a)"],
  ["throws_null", "throw null", "it throws null"],
  ["throws_much", "throw new Error('x'.repeat(2 ** 27))", `it throws Error: ${"x".repeat(293)}`],
  ["throws_signs", writes("throw {toString() { return '\\x1b[2J\\n\\u202e'; }};"), "it throws \\u{1b}[2J\\u{a}\\u{202e}"],
  ["memory", "const all = []; for (;;) all.push(new Array(1e6).fill(all.length));", "it ran out of memory"],
  ["crash", "'a'.repeat(2 ** 28).split('')", "its process broke off"],
  ["buffers", "new Uint8Array(2 ** 33)", "it throws ReferenceError: Uint8Array is not defined"],
  ["machine_code", "new WebAssembly.Memory({initial: 60000})", "it throws ReferenceError: WebAssembly is not defined"],
  ["eval", "eval('1')", "it throws EvalError: Code generation from strings disallowed for this context"],
  ["no_end", "({\n  values: 3,\n  *write(value) {", "line 3: Unexpected end of input"],
  ["async", GOOD.replace(WRITE, `async ${WRITE}`), "yield read(NAME) or yield write(NAME, VALUE), of b0, b1, b2: null"],
  ["a_number", "1", "a construction is an object: ({values: 2, registers: {..}, *write(value, my) {..}, *read(my) {..}})"],
  ["ever_more_accesses", GOOD.replace(READ, `${READ} for (;;) yield read("b0");`), "an operation makes more than 64 accesses"],
].map(([name, text, words]) => [name, text, `not met, ${words}`]);

export const HOSTILE = [...LOOKING, ...MET, ...NOT_MET];

// Hand-ins that do not terminate.
export const ENDLESS = [
  ["loop", "for (;;);"],
  ["loop_in_a_write", writes("for (;;);")],
  ["loop_in_a_builtin", "Array.prototype.includes.call({length: 2 ** 53 - 1}, 1)"], // which cannot be stopped in a thread, but can be in a process
];
