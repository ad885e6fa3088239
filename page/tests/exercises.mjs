// Tests the exercises for a class, under node: what a teacher's file must not contain, which needs a construction is reported to meet or miss, and the code with
// which it is handed in. The last line is `N passed, M failed`.
import { readFileSync } from "node:fs";
import { runInNewContext } from "node:vm";
import { explored } from "../src/lab/explorer.js";
import { boundWords, exerciseOf, handIn, judged, readHandIn } from "../src/lab/exercises.js";
import { Wrong, read, write } from "../src/lab/procedures.js";

const page = new URL("../", import.meta.url);
let passed = 0, failed = 0;

function same(what, got, want) {
  const isSame = JSON.stringify(got) === JSON.stringify(want);
  if (isSame) passed++;
  else {
    failed++;
    console.log(`${what}: got ${JSON.stringify(got)}, want ${JSON.stringify(want)}`);
  }
}

// The message of a refused call, or "nothing".
function refusal(call) {
  try {
    call();
  } catch (error) {
    return error instanceof Wrong ? error.message : `no Wrong: ${error}`;
  }
  return "nothing";
}

const textOf = name => readFileSync(new URL(`constructions/${name}.js`, page), "utf8");
const constructionOf = text => runInNewContext(text, {read, write});

// ---- the file of a teacher -----------------------------------------------------------------------------------------------------------------------

const NEEDS = {class: "regular", values: 3, readers: 1, kinds: ["safe"], registers: 3, accesses: 4, writes: 3, reads: 2};
const EXERCISE = {exercise: "Three values", task: "Build it.", text: "({})", needs: NEEDS};
const but = (fields, needs = {}) => JSON.stringify({...EXERCISE, ...fields, needs: {...NEEDS, ...needs}});
const without = (it, name) => Object.fromEntries(Object.entries(it).filter(([key]) => key !== name));

same("an exercise", exerciseOf(but({})), EXERCISE);
for (const name of ["registers", "accesses", "domain"]) {
  const needs = without({...NEEDS, domain: 2}, name);
  same(`an exercise without ${name}`, exerciseOf(JSON.stringify({...EXERCISE, needs})).needs, needs);
}
const KINDS = "is not a list of one or more of safe, regular, atomic, each once", WHOLE = "is not a whole number from";
for (const [text, words] of [
  ["[]", 'an exercise is an object: {"exercise": .., "task": .., "text": .., "needs": {..}}'],
  ["null", 'an exercise is an object: {"exercise": .., "task": .., "text": .., "needs": {..}}'],
  [but({colour: 1}), 'unknown field "colour": there are exercise, task, text, needs'],
  ['{"__proto__": 1}', 'unknown field "__proto__": there are exercise, task, text, needs'],
  [but({}, {bits: 2}), 'unknown field "needs.bits": there are class, values, readers, kinds, registers, domain, accesses, writes, reads'],
  ...["exercise", "task", "text", "needs"].map(name => [JSON.stringify(without(EXERCISE, name)), `field "${name}" is missing: `]),
  ...["class", "values", "readers", "kinds", "writes", "reads"].map(name =>
    [JSON.stringify({...EXERCISE, needs: without(NEEDS, name)}), `field "needs.${name}" is missing: `]),
  [but({exercise: 1}), 'field "exercise" is not a line of 1 to 200 characters'],
  [but({exercise: ""}), 'field "exercise" is not a line of 1 to 200 characters'],
  [but({exercise: "a\nb"}), 'field "exercise" is not a line of 1 to 200 characters'],
  [but({task: ["Build it."]}), 'field "task" is not a text of 1 to 20000 characters'],
  [but({text: "x".repeat(100001)}), 'field "text" is not a text of 1 to 100000 characters'],
  [JSON.stringify({...EXERCISE, needs: [NEEDS]}), 'field "needs" is not an object, as {"class": "regular", ..}'],
  [but({}, {class: "Atomic"}), 'field "needs.class" is not one of safe, regular, atomic by reader, atomic'],
  [but({}, {values: 1}), `field "needs.values" ${WHOLE} 2 to 16`],
  [but({}, {values: "3"}), `field "needs.values" ${WHOLE} 2 to 16`],
  [but({}, {readers: 5}), `field "needs.readers" ${WHOLE} 1 to 4`],
  [but({}, {kinds: "safe"}), `field "needs.kinds" ${KINDS}`],
  [but({}, {kinds: []}), `field "needs.kinds" ${KINDS}`],
  [but({}, {kinds: ["safe", "weak"]}), `field "needs.kinds" ${KINDS}`],
  [but({}, {kinds: ["safe", "safe"]}), `field "needs.kinds" ${KINDS}`],
  [but({}, {registers: 0}), `field "needs.registers" ${WHOLE} 1 to 64`],
  [but({}, {domain: 1}), `field "needs.domain" ${WHOLE} 2 to 30`],
  [but({}, {accesses: 1.5}), `field "needs.accesses" ${WHOLE} 1 to 64`],
  [but({}, {accesses: null}), `field "needs.accesses" ${WHOLE} 1 to 64`],
  [but({}, {writes: 0}), `field "needs.writes" ${WHOLE} 1 to 1000`],
  [but({}, {reads: 1001}), `field "needs.reads" ${WHOLE} 1 to 1000`],
]) same(`refused: ${text.slice(0, 160)}`, refusal(() => exerciseOf(text)).slice(0, words.length), words);
same("no JSON", refusal(() => exerciseOf("{")).startsWith("an exercise is JSON: "), true);

// ---- what is reported of a construction-----------------------------------------------------------------------------------------------------------

const WHOLLY = {states: 100000, milliseconds: 60000};
function said(name, needs, bounds = WHOLLY, text = textOf(name)) {
  const it = judged({...EXERCISE, needs}, constructionOf(text), bounds);
  return [it.isMet, it.lines.filter(one => one.is).map(one => one.words), it.lines.filter(one => !one.is).map(one => one.words)];
}
const OF_THE_RING = {...NEEDS, domain: 2}, BOUND = "up to 3 writes and 2 reads";
same("all is met", said("unary_of_the_ring", OF_THE_RING), [true, [
  "values: 3", "readers: 1", "registers that are safe", "registers: 3 of at most 3", "each register takes at most 2 values",
  `regular, ${BOUND}: no history misses it`, "one operation makes at most 4 accesses: a write 3, a read 3",
], []]);
same("a class is missed", said("unary_up", {...NEEDS, kinds: ["regular"]})[2], ["regular: missed, in 13 steps"]);
same("a weaker class is not", said("unary_up", {...NEEDS, kinds: ["regular"], class: "safe"})[2], []);
same("a stronger class is missed too", said("unary_clears_first", {...NEEDS, kinds: ["regular"], class: "atomic by reader", reads: 1})[2],
     ["atomic by reader: missed, in 7 steps"]);
same("of another form", said("copies_atomic", {...NEEDS, class: "safe", registers: 1})[2],
     ["values: 2, but 3 asked for", "readers: 2, but 1 asked for", "registers that are safe: c1 is atomic", "registers: 2 of at most 1"]);
same("of either kind", said("peterson", {...NEEDS, class: "safe", values: 2, kinds: ["safe", "regular"], registers: 7, accesses: 64, writes: 1, reads: 1})[2],
     ["registers that are safe or regular: wflag is atomic"]);
same("values of a register", said("numbered", {...NEEDS, values: 2, kinds: ["regular"], domain: 4})[2], ["each register takes at most 4 values: t takes 7"]);
const TROMP = {class: "atomic", values: 2, readers: 1, kinds: ["safe"], registers: 3, accesses: 6, writes: 2, reads: 2};
same("accesses of a read", said("tromp", TROMP)[2], ["one operation makes at most 6 accesses: a read makes 7, when it "
  + "reads w as 1, reads v as 1, reads w as 1, writes 1 to r, reads v as 1, reads w as 0, reads v"]);
same("accesses of a write", said("unary_down", {...NEEDS, kinds: ["regular"], reads: 1, accesses: 2}, WHOLLY, textOf("unary_down").replaceAll("i < 3", "i < 2"))[2].at(-1),
     "one operation makes at most 2 accesses: a write makes 3, when it writes 1 to b2, writes 0 to b1, writes 0 to b0");
same("one access", said("bit_always_written", {...NEEDS, class: "safe", values: 2, accesses: 1})[1].slice(-2),
     [`safe, ${BOUND}: no history misses it`, "one operation makes at most 1 access: a write 1, a read 1"]);
// The class is missed before everything is explored, but the longest operation is still found.
same("all is explored", said("tromp_without_second_look", {...TROMP, accesses: 5, writes: 3, reads: 3})[2].map(it => it.slice(0, 66)),
     ["atomic: missed, in 21 steps", "one operation makes at most 5 accesses: a read makes 6, when it re"]);
// An exploration cut short by its limit: what was not found is unknown; what was found is known.
const CUT = {states: 100, milliseconds: 60000}, UNKNOWN = "not known, since the exploring stopped at its limit";
same("cut short", said("unary_of_the_ring", OF_THE_RING, CUT), [false, said("unary_of_the_ring", OF_THE_RING)[1].slice(0, 4), [
  `each register takes at most 2 values: ${UNKNOWN}`, `regular, ${BOUND}: ${UNKNOWN}, after 101 states`,
  `one operation makes at most 4 accesses: ${UNKNOWN}`,
]]);
same("cut short, and missed", said("bit_always_written", {...NEEDS, values: 2, reads: 3}, {states: 20, milliseconds: 60000})[2].at(-2), "regular: missed, in 3 steps");
for (const bound of ["numbers", "steps"])
  same(`cut short by its ${bound}`, said("unary_of_the_ring", OF_THE_RING, {...WHOLLY, [bound]: 1000})[2].map(it => it.includes(UNKNOWN)), [true, true, true]);
same("no time", said("tromp", TROMP, {states: 100000, milliseconds: -1})[2][0], `atomic, up to 2 writes and 2 reads: ${UNKNOWN}, after 1 states`);
same("one of each", boundWords({writes: 1, reads: 1, readers: 1}), "up to 1 write and 1 read");
same("two readers", boundWords({writes: 2, reads: 1, readers: 2}), "up to 2 writes and 1 read of each of 2 readers");
same("what is no construction", refusal(() => judged(EXERCISE, constructionOf("({values: 3})"))), "registers: those that it is built of, by their names");

// The maximum number of accesses of an operation, counted by hand.
const accessesOf = (name, writes, reads) => explored(constructionOf(textOf(name)), {writes, reads, all: true}).accesses;
for (const [name, writes, reads, write, read] of [
  ["bit_written_on_change", 2, 2, 1, 1], ["bit_written_on_change", 0, 2, 0, 1], ["bit_written_on_change", 2, 0, 1, 0], ["copies_for_three", 1, 1, 3, 1],
  ["binary_safe", 2, 2, 2, 2], ["unary_down", 2, 2, 3, 3], ["unary_down", 0, 2, 0, 1], ["unary_read_twice", 2, 2, 3, 5], ["four_slots", 2, 2, 4, 4],
  ["peterson", 1, 1, 8, 10], ["tromp", 2, 2, 3, 7], ["two_readers_told", 1, 1, 1, 3],
]) same(`${name}: accesses`, accessesOf(name, writes, reads), {write, read});

// ---- codes ---------------------------------------------------------------------------------------------------------------------------------------

const CODE = handIn(EXERCISE, "({values: 2})\n", "Ada");
// (its checksum is zlib.crc32)
same("a code", CODE, "kegbygone-1.eyJleGVyY2lzZSI6IlRocmVlIHZhbHVlcyIsIm5hbWUiOiJBZGEiLCJ0ZXh0IjoiKHt2YWx1ZXM6IDJ9KVxuIn0.babf51ed");
for (const [name, text] of [
  ["Ada", "({values: 2})\n"], ["Zoë Müller-Öztürk", "// ü, 漢字, 😀\n"], ["名前", "\ud800 alone, and \u2028, and \0"], ["x".repeat(100), "y".repeat(100000)],
  ["A", "漢".repeat(100000)], ["A", "~"], ["A", "~~"], ["A", "~~~"], ["A", "ÿÿÿ>>>???"], ["\ufeffA", "\ufeff({})"], ...["tromp", "peterson"].map(it => [it, textOf(it)]),
]) {
  const code = handIn(EXERCISE, text, name), it = readHandIn(code);
  same(`a code of ${JSON.stringify(text.slice(0, 20))}`, [it.exercise, it.name, it.text === text, /^[!-~]+$/.test(code)], ["Three values", name, true, true]);
}
same("a code over several lines", readHandIn(` ${CODE.match(/.{1,20}/g).join("\r\n")}\n`).name, "Ada");
const COPY = "copy it again, from kegbygone-1 to its last character";
const cut = Array.from({length: CODE.length}, (_, i) => refusal(() => readHandIn(CODE.slice(0, i))));
same("cut short at any point", [...new Set(cut)], [`this code is cut short: ${COPY}`]);
const begun = Array.from({length: CODE.length}, (_, i) => refusal(() => readHandIn(CODE.slice(i + 1))));
same("without its beginning", begun.filter(it => it !== `this code is mistyped: ${COPY}` && it !== `this code is cut short: ${COPY}`), []);
const LETTERS = Array.from({length: 95}, (_, i) => String.fromCharCode(32 + i));
let changed = 0;
const unseen = [...CODE].flatMap((old, i) => [...LETTERS.filter(it => it !== old), "", "é", "0x"].filter(it => {
  changed++;
  return refusal(() => readHandIn(CODE.slice(0, i) + it + CODE.slice(i + 1))) === "nothing";
}));
same("one character changed anywhere", [unseen, changed], [[], 97 * CODE.length]);
const swapped = [...CODE].filter((it, i) => i && it !== CODE[i - 1] && refusal(() => readHandIn(CODE.slice(0, i - 1) + it + CODE[i - 1] + CODE.slice(i + 1))) === "nothing");
same("two characters swapped", swapped, []);
for (const [code, words] of [
  [CODE.replace("-1.", "-2."), "this code is of version kegbygone-2, and only kegbygone-1 is read"],
  ["", `this code is cut short: ${COPY}`], ["hello", `this code is mistyped: ${COPY}`], [`${CODE}.0`, `this code is mistyped: ${COPY}`],
  ["x".repeat(700000), `this code is too long: ${COPY}`], [CODE.toUpperCase(), `this code is mistyped: ${COPY}`],
]) same(`refused: ${code.slice(0, 60)}`, refusal(() => readHandIn(code)), words);
same("no name", refusal(() => handIn(EXERCISE, "x", "")), "a name is a line of 1 to 100 characters");
same("a name of two lines", refusal(() => handIn(EXERCISE, "x", "a\nb")), "a name is a line of 1 to 100 characters");
same("no text", refusal(() => handIn(EXERCISE, "", "a")), "a construction is a text of 1 to 100000 characters");

console.log(`${passed} passed, ${failed} failed`);
process.exitCode = failed ? 1 : 0;
