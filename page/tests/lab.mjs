// Tests the lab's explorer, under node: each construction of page/constructions has the class and the shortest histories that its header states, and the proved
// audit confirms both; with small bounds it agrees with an enumeration that merges nothing; a text that is not a construction is refused.
// The audit used is $PROGRAM audit --register. The last line is `N passed, M failed`.
import { execFileSync, spawnSync } from "node:child_process";
import { readFileSync, readdirSync } from "node:fs";
import { fileURLToPath } from "node:url";
import { runInNewContext } from "node:vm";
import { enumerated } from "./lab_enumerated.mjs";
import { CLASSES } from "../src/lab/audit.js";
import { explored, recordingOf } from "../src/lab/explorer.js";
import { Wrong, read, write } from "../src/lab/procedures.js";

const here = new URL(".", import.meta.url), folder = new URL("../constructions/", here);
const program = process.env.PROGRAM ?? execFileSync(fileURLToPath(new URL("../../lamport_ring", here)), ["--which"], {encoding: "utf8"}).trim();
const ORDER = ["not safe", ...CLASSES];
const SMALL = [[2, 2], [3, 1], [2, 1], [1, 2], [1, 1]], MOST_HISTORIES = 8000; // bounds of an enumeration: the first one with few enough histories is used, if any
let passed = 0, failed = 0, enumerations = 0;

function same(what, got, want) {
  const isSame = JSON.stringify(got) === JSON.stringify(want);
  if (isSame) passed++;
  else {
    failed++;
    console.log(`${what}: got ${JSON.stringify(got)}, want ${JSON.stringify(want)}`);
  }
}

const textOf = name => readFileSync(new URL(name, folder), "utf8");
const constructionOf = text => runInNewContext(text, {read, write});

// What the header of a construction states: its bound, its class, and for each class that is missed the number of steps.
function headOf(text) {
  const [, writes, reads, best, rest] = /^\/\/ (\d+) writes, (\d+) reads: ([a-z ]+)(.*)$/m.exec(text);
  const missed = Object.fromEntries([...rest.matchAll(/not ([a-z ]+) in (\d+) steps/g)].map(([, name, steps]) => [name, Number(steps)]));
  return {writes: Number(writes), reads: Number(reads), best: best === "no class" ? null : best, missed};
}

// The strongest class of a recording, according to the proved audit.
const audited = recording => spawnSync(program, ["audit", "--register"], {input: recording, encoding: "utf8"}).stdout.split("\n")[0];

// The steps of each class; a class that is not listed is missed together with the one before it.
function stepsOf({missed}, {found}) {
  const steps = {};
  let last = null;
  for (const name of CLASSES) {
    if (name in missed) last = missed[name];
    steps[name] = name in missed ? missed[name] : found[name] ? Math.min(found[name].steps, last ?? Infinity) : null;
  }
  return steps;
}

for (const name of readdirSync(folder).sort()) {
  const text = textOf(name), head = headOf(text), it = explored(constructionOf(text), {...head, states: 1000000, milliseconds: 120000});
  same(`${name}: its class`, it.best, head.best);
  same(`${name}: its shortest histories`, Object.fromEntries(CLASSES.map(each => [each, it.found[each]?.steps ?? null])), stepsOf(head, it));
  same(`${name}: each that its header states`, Object.keys(head.missed).map(each => it.found[each]?.steps), Object.values(head.missed));
  for (const [missed, found] of Object.entries(it.found).filter(([, one]) => one !== null)) {
    const recording = recordingOf(it.form, found.events), before = recording.replace(/[^\n]*\n$/, "");
    same(`${name}: not ${missed}, by the audit`, [recording, before].map(one => ORDER.indexOf(audited(one)) >= ORDER.indexOf(missed)), [false, true]);
  }
  const construction = constructionOf(text), bounds = SMALL.map(([writes, reads]) => ({writes, reads}));
  const small = bounds.find(bound => (explored(construction, {...bound, all: true}).histories ?? Infinity) <= MOST_HISTORIES);
  let each = "none";
  if (small) {
    const merged = explored(construction, {...small, all: true}), one = enumerated(construction, small), steps = CLASSES.map(of => merged.found[of]?.steps ?? null);
    same(`${name}: ${small.writes} writes, ${small.reads} reads, with nothing merged`, [merged.histories, ...steps], [one.histories, ...one.shortest.map(it => it === Infinity ? null : it)]);
    each = one.histories;
    enumerations++;
  }
  console.log(`${name}: ${it.best ?? "not safe"}, ${it.histories ?? "-"} histories in ${it.states} states, ${(it.milliseconds / 1000).toFixed(1)} s; one by one ${each}`);
}

// The message for a student whose text is not a construction.
const bit = "values: 2, registers: {b: {}}", put = "*write(value) { yield write('b', value); }", get = "*read() { return yield read('b'); }";
for (const [text, words] of [
  ["1", "a construction is an object"],
  [`({${bit}, ${put}})`, "*read(..) {..} is missing"],
  [`({values: 1, registers: {b: {}}, ${put}, ${get}})`, "values: how many values"],
  [`({values: 2, registers: {}, ${put}, ${get}})`, "registers: those that it is built of"],
  [`({values: 2, registers: {b: {kind: "weak"}}, ${put}, ${get}})`, "b is of no kind"],
  [`({values: 2, registers: {b: {}, r: {writer: "R1"}}, *write(value) { yield write('r', value); }, ${get}})`, "W writes r, whose writer is R1"],
  [`({${bit}, *write(value) { yield write('a', value); }, ${get}})`, "yield read(NAME) or yield write(NAME, VALUE), of b"],
  [`({${bit}, ${put}, *read() { for (;;) yield read('b'); }})`, "an operation makes more than 64 accesses"],
  [`({${bit}, *write(value) { yield value; }, ${get}})`, "yield read(NAME) or yield write(NAME, VALUE), of b"],
  [`({${bit}, ${put}, read() { return read('b'); }})`, "read is no generator"],
  [`({${bit}, ${put}, *read() { return this.n = (this.n ?? 0) + 1; }})`, "a procedure keeps something outside of `my`"],
  [`({${bit}, ${put}, *read() { return Math.random() < 0.5 ? 0 : yield read('b'); }})`, "a procedure keeps something outside of `my`"],
]) {
  let said = "nothing";
  try {
    // (a random draw may repeat)
    for (let tried = 0; tried < 20; tried++) explored(constructionOf(text), {writes: 1, reads: 1});
  } catch (error) {
    said = error instanceof Wrong ? error.message : String(error);
  }
  same(text, said.startsWith(words) ? words : said, words);
}
same("enumerations", enumerations >= 20, true);
console.log(`${passed} passed, ${failed} failed`);
process.exitCode = failed ? 1 : 0;
