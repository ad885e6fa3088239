// Exercises for a class: the file of a teacher, whether a construction meets what it asks for, and the code by which a student hands a
// construction in.

import { CLASSES } from "./audit.js";
import { explored } from "./explorer.js";
import { KINDS_OF_REGISTERS, Wrong } from "./procedures.js";

// ---- the file of a teacher -------------------------------------------------------------------------------------------------------------

const isObject = it => it !== null && typeof it === "object" && !Array.isArray(it);
const text = most => ({words: `a text of 1 to ${most} characters`, has: it => typeof it === "string" && it !== "" && it.length <= most});
const line = most => ({words: `a line of 1 to ${most} characters`, has: it => text(most).has(it) && !/\p{Cc}/u.test(it)});
const isCount = (it, least, most) => Number.isInteger(it) && it >= least && it <= most;
const count = (least, most) => ({words: `a whole number from ${least} to ${most}`, has: it => isCount(it, least, most)});
const optional = field => ({...field, isOptional: true});
const isKind = it => KINDS_OF_REGISTERS.includes(it);
const isKinds = it => Array.isArray(it) && it.length > 0 && it.every(isKind) && new Set(it).size === it.length;

const FIELDS = {
  exercise: line(200), // its title
  task: text(20000), // what the student reads
  text: text(100000), // the construction to begin with
  needs: {words: 'an object, as {"class": "regular", ..}', has: isObject},
};
const NEEDS = {
  class: {words: `one of ${CLASSES.join(", ")}`, has: it => CLASSES.includes(it)}, // the weakest that is enough
  values: count(2, 16), // of the register
  readers: count(1, 4),
  kinds: {words: `a list of one or more of ${KINDS_OF_REGISTERS.join(", ")}, each once`, has: isKinds}, // of the registers that may be used
  registers: optional(count(1, 64)), // how many may be used
  domain: optional(count(2, 30)), // how many values each of them may take
  accesses: optional(count(1, 64)), // how many one operation may make
  writes: count(1, 1000), // the bound to explore: of these, and of the reads of each reader
  reads: count(1, 1000),
};
const NAME = line(100); // of a student

function check(it, fields, where) {
  const names = Object.keys(fields);
  for (const name of Object.keys(it))
    if (!names.includes(name)) throw new Wrong(`unknown field ${JSON.stringify(where + name)}: there are ${names.join(", ")}`);
  for (const [name, {words, has, isOptional}] of Object.entries(fields)) {
    const isThere = Object.hasOwn(it, name), shown = JSON.stringify(where + name);
    if (!isThere && !isOptional) throw new Wrong(`field ${shown} is missing: ${words}`);
    if (isThere && !has(it[name])) throw new Wrong(`field ${shown} is not ${words}`);
  }
}

// The exercise of a teacher's file: {exercise, task, text, needs}.
export function exerciseOf(file) {
  let it;
  try {
    it = JSON.parse(file);
  } catch (error) {
    throw new Wrong(`an exercise is JSON: ${error.message}`);
  }
  if (!isObject(it)) throw new Wrong('an exercise is an object: {"exercise": .., "task": .., "text": .., "needs": {..}}');
  check(it, FIELDS, "");
  check(it.needs, NEEDS, "needs.");
  return it;
}

// ---- whether a construction meets it ---------------------------------------------------------------------------------------------------

const UNKNOWN = "not known, since the exploring stopped at its limit";
const counted = (number, one, several = `${one}s`) => `${number} ${number === 1 ? one : several}`;

// The bound of an exercise in words.
export function boundWords({writes, reads, readers}) {
  const each = readers > 1 ? ` of each of ${readers} readers` : "";
  return `up to ${counted(writes, "write")} and ${counted(reads, "read")}${each}`;
}

// The accesses of an operation in words; the answer of the last one does not matter.
const wayWords = way => way.map(({does, register, value}) =>
  does === "write" ? `writes ${JSON.stringify(value)} to ${register}`
    : value === undefined ? `reads ${register}` : `reads ${register} as ${JSON.stringify(value)}`).join(", ");

function classLine(needs, {found, states, isWhole}) {
  const missed = found[needs.class];
  if (missed) return {is: false, words: `${needs.class}: missed, in ${counted(missed.steps, "step")}`};
  if (!isWhole) return {is: false, words: `${needs.class}, ${boundWords(needs)}: ${UNKNOWN}, after ${states} states`};
  return {is: true, words: `${needs.class}, ${boundWords(needs)}: no history misses it`};
}

function accessesLine({accesses: most}, {accesses, longest, histories}) {
  const asked = `one operation makes at most ${counted(most, "access", "accesses")}`;
  const over = accesses.read > most && accesses.read >= accesses.write ? "read" : accesses.write > most ? "write" : null;
  if (over) return {is: false, words: `${asked}: a ${over} makes ${accesses[over]}, when it ${wayWords(longest[over])}`};
  if (histories === null) return {is: false, words: `${asked}: ${UNKNOWN}`};
  return {is: true, words: `${asked}: a write ${accesses.write}, a read ${accesses.read}`};
}

function domainLine({domain}, {registers, histories}) {
  const asked = `each register takes at most ${domain} values`, over = registers.find(it => it.values > domain);
  if (over) return {is: false, words: `${asked}: ${over.name} takes ${over.values}`};
  return histories === null ? {is: false, words: `${asked}: ${UNKNOWN}`} : {is: true, words: asked};
}

// Whether a construction meets an exercise: {isMet, lines, found}, with a line {is, words} for each requirement, and the explorer's answer.
// `bounds` are its limits, {states, milliseconds}; `report` is called as the explorer calls it.
export function judged(exercise, construction, bounds = {}, report = () => {}) {
  const {needs} = exercise, {values, readers, kinds, registers, domain, accesses, writes, reads} = needs;
  // What the longest operation is, and which values a register takes, is known only if every history is explored.
  const all = bounds.all || domain !== undefined || accesses !== undefined;
  const found = explored(construction, {...bounds, writes, reads, all}, report), {form} = found;
  const other = found.registers.find(it => !kinds.includes(it.kind)), used = found.registers.length;
  const equal = (name, has, asked) => ({is: has === asked, words: `${name}: ${has}${has === asked ? "" : `, but ${asked} asked for`}`});
  const lines = [
    equal("values", form.values, values),
    equal("readers", form.readers, readers),
    {is: !other, words: `registers that are ${kinds.join(" or ")}${other ? `: ${other.name} is ${other.kind}` : ""}`},
  ];
  if (registers !== undefined) lines.push({is: used <= registers, words: `registers: ${used} of at most ${registers}`});
  if (domain !== undefined) lines.push(domainLine(needs, found));
  lines.push(classLine(needs, found));
  if (accesses !== undefined) lines.push(accessesLine(needs, found));
  return {isMet: lines.every(it => it.is), lines, found};
}

// ---- the code by which a construction is handed in -------------------------------------------------------------------------------------

const VERSION = "kegbygone-1", MOST_CODE = 600000;
const SUM = /^[0-9a-f]{8}$/;

// The CRC-32 of ASCII characters: any change within four consecutive ones gives another.
function sumOf(ascii) {
  let sum = -1;
  for (let i = 0; i < ascii.length; i++) {
    sum ^= ascii.charCodeAt(i);
    for (let bit = 0; bit < 8; bit++) sum = sum & 1 ? sum >>> 1 ^ 0xedb88320 : sum >>> 1;
  }
  return (~sum >>> 0).toString(16).padStart(8, "0");
}

// The code of a construction's text for an exercise, by the student of this name: one line of printable ASCII. Its checksum finds a code
// that was cut short or mistyped. It does not show who made the code.
export function handIn({exercise}, construction, name) {
  if (!NAME.has(name)) throw new Wrong(`a name is ${NAME.words}`);
  if (!FIELDS.text.has(construction)) throw new Wrong(`a construction is ${FIELDS.text.words}`);
  const bytes = new TextEncoder().encode(JSON.stringify({exercise, name, text: construction}));
  const letters = btoa(Array.from(bytes, it => String.fromCharCode(it)).join(""));
  const code = `${VERSION}.${letters.replaceAll("+", "-").replaceAll("/", "_").replaceAll("=", "")}`;
  return `${code}.${sumOf(code)}`;
}

// What is in such a code, {exercise, name, text}; white space is left out, as a mail program may break a line.
export function readHandIn(code) {
  const wrong = words => new Wrong(`this code ${words}: copy it again, from ${VERSION} to its last character`);
  const own = code.replace(/\s+/g, "");
  if (own.length > MOST_CODE) throw wrong("is too long");
  const [version, letters = "", sum = "", ...more] = own.split(".");
  const isOther = /^kegbygone-\d+$/.test(version) && version !== VERSION;
  if (isOther) throw new Wrong(`this code is of version ${version}, and only ${VERSION} is read`);
  if (VERSION.startsWith(version) && sum.length < 8) throw wrong("is cut short");
  const isWhole = version === VERSION && !more.length && /^[\w-]+$/.test(letters) && SUM.test(sum);
  if (!isWhole || sumOf(`${version}.${letters}`) !== sum) throw wrong("is mistyped");
  try {
    const bytes = Uint8Array.from(atob(letters.replaceAll("-", "+").replaceAll("_", "/")), it => it.charCodeAt(0));
    const {exercise, name, text: construction} = JSON.parse(new TextDecoder("utf-8", {fatal: true, ignoreBOM: true}).decode(bytes));
    if (FIELDS.exercise.has(exercise) && NAME.has(name) && FIELDS.text.has(construction)) return {exercise, name, text: construction};
  } catch {
    // what has the right sum and is not JSON was made by hand
  }
  throw wrong("is mistyped");
}
