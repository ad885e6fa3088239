// Tests page/check under node: each shipped exercise, with its solution and the wrong ones of tests/exercises; a class of 60, three of them malicious; each text
// of hostile_hand_ins.mjs; a report; files that are not hand-ins; misuse. The last line is `N passed, M failed`.
import { execFileSync, spawnSync } from "node:child_process";
import { cpSync, existsSync, mkdirSync, mkdtempSync, readFileSync, readdirSync, rmSync, symlinkSync, writeFileSync } from "node:fs";
import { availableParallelism, loadavg, tmpdir } from "node:os";
import { join } from "node:path";
import { fileURLToPath } from "node:url";
import { ENDLESS, HOSTILE, LOOKING } from "./hostile_hand_ins.mjs";
import { exerciseOf, handIn } from "../src/lab/exercises.js";

const page = fileURLToPath(new URL("../", import.meta.url)), folder = mkdtempSync(join(tmpdir(), "check-"));
const program = process.env.PROGRAM ?? execFileSync(join(page, "../lamport_ring"), ["--which"], {encoding: "utf8"}).trim();
let passed = 0, failed = 0;

function same(what, got, want) {
  const isSame = JSON.stringify(got) === JSON.stringify(want);
  if (isSame) passed++;
  else {
    failed++;
    console.log(`${what}: got ${JSON.stringify(got)}, want ${JSON.stringify(want)}`);
  }
}

// A folder with these files, and what page/check reports of it: its status, its lines.
function folderOf(name, files) {
  const path = join(folder, name);
  mkdirSync(path);
  for (const [file, text] of Object.entries(files)) writeFileSync(join(path, file), text);
  return path;
}
function checked(...given) {
  const {status, stdout, stderr} = spawnSync(join(page, "check"), given, {encoding: "utf8"});
  return [status, ...`${stdout}${stderr}`.trimEnd().split("\n")];
}
const fileOf = (name, text) => {
  writeFileSync(join(folder, name), text);
  return join(folder, name);
};
const textOf = name => readFileSync(join(page, `constructions/${name}.js`), "utf8");

// ---- the shipped exercises: the first line of each text is the expected result ---------------------------------------------------------------------

const FIRST_LINE = /^\/\/ ((?:not )?met.*)\n/, shipped = readdirSync(join(page, "exercises")).map(it => it.replace(/\.json$/, ""));
same("exercises", [shipped.length >= 5, readdirSync(join(page, "tests/exercises"))], [true, shipped]);
for (const name of shipped) {
  const path = join(page, `exercises/${name}.json`), its = join(page, `tests/exercises/${name}`), files = readdirSync(its).sort();
  const lines = files.map(file => `${file}: ${FIRST_LINE.exec(readFileSync(join(its, file), "utf8"))?.[1]}`), wrong = files.length - 1;
  same(`${name}: its solution and others`, checked(path, its, "--jobs", "1"), [1, ...lines, `1 met, ${wrong} not met`]);
  same(`${name}: one is met, two or more are not`, [lines[0], wrong >= 2], ["solution.js: met", true]);
  const exercise = exerciseOf(readFileSync(path, "utf8")), begun = folderOf(`begun_${name}`, {"begun.js": exercise.text});
  same(`${name}: what it begins with is not enough`, checked(path, begun)[0], 1);
}

// ---- a class of 60 -----------------------------------------------------------------------------------------------------------------------------------

const EXERCISE = {exercise: "Three values", task: "Build it.", text: textOf("unary_clears_first"),
                  needs: {class: "regular", values: 3, readers: 1, kinds: ["safe", "regular"], registers: 3, domain: 2, accesses: 4, writes: 3, reads: 2}};
const three = fileOf("three.json", JSON.stringify(EXERCISE));
const SAID = [
  ["unary_down", "met"], ["unary_of_the_ring", "met"], ["unary_up", "not met, regular: missed, in 13 steps"],
  ["unary_clears_first", "not met, regular: missed, in 7 steps"], ["unary_always_written", "not met, regular: missed, in 7 steps"],
  ["unary_of_atomic_bits", "not met, registers that are safe or regular: b0 is atomic"],
];
const files = {}, want = [];
for (let i = 10; i < 67; i++) {
  const [construction, words] = SAID[(i - 10) % 6], text = `// by student ${i}\n${textOf(construction)}`, isCode = i % 2 === 0;
  files[`${i}.${isCode ? "txt" : "js"}`] = isCode ? `${handIn(EXERCISE, text, `Student ${i}`)}\n` : text;
  want.push(`${isCode ? `Student ${i} (${i}.txt)` : `${i}.js`}: ${words}`);
}
files["50.txt"] = handIn(EXERCISE, `// by student 41\n${textOf("unary_of_the_ring")}`, "Student 50"); // as 41.js has it
want[40] = "Student 50 (50.txt): met";
const stopped = seconds => `not met, it was stopped after ${seconds} s: a part of it does not end`;
for (const [name, file, words] of [["loop", "67.js", stopped(15)], ["memory", "68.js"], ["pollution_of_a_wrong_one", "69.js"]]) {
  const [, text, its] = [...ENDLESS, ...HOSTILE].find(it => it[0] === name);
  files[file] = text;
  want.push(`${file}: ${its ?? words}`);
}
same("a class of 60", [want.length, Object.keys(files).length], [60, 60]);
const klass = folderOf("class", files), began = performance.now();
same("what is said of them", checked(three, klass, "--jobs", "1", "--seconds", "10"), [1, ...want, "the same text: 41.js, Student 50 (50.txt)", "21 met, 39 not met"]);
const seconds = (performance.now() - began) / 1000, isBusy = loadavg()[0] > availableParallelism();
console.log(`60 hand-ins, of which one is stopped after 15 s: ${seconds.toFixed(1)} s${isBusy ? ", on a machine with other work" : ""}`);
same("in a minute", seconds < (isBusy ? 180 : 60), true);

// ---- malicious hand-ins --------------------------------------------------------------------------------------------------------------------------------

const marks = ["a", "b"].map(it => join(folder, `mark_${it}`));
const writesFile = path => `import("node:fs").then(it => it.writeFileSync("${path}", "x"));\n`;
const harm = folderOf("harm", {
  ...Object.fromEntries(HOSTILE.map(([name, text]) => [`${name}.js`, text])),
  "writes_a_file.js": writesFile(marks[0]) + textOf("unary_down"), "\x1b[31mred.js": "throw 1",
});
const HARM = [...HOSTILE.map(([name, , words]) => [`${name}.js`, words]), ["writes_a_file.js", "met"], ["\x1b[31mred.js", "not met, it throws 1"]];
const inOrder = HARM.sort(([a], [b]) => a < b ? -1 : 1).map(([file, words]) => `${file.replace("\x1b", "\\u{1b}")}: ${words}`);
const met = inOrder.filter(it => it.endsWith(": met")).length;
same("those that mean harm", checked(three, harm, "--jobs", "1").filter(it => !String(it).startsWith("the same text")),
     [1, ...inOrder, `${met} met, ${inOrder.length - met} not met`]);
same("no file is written", marks.map(existsSync), [false, false]);
const endless = folderOf("endless", Object.fromEntries(ENDLESS.map(([name, text]) => [`${name}.js`, text])));
same("those that do not end", checked(three, endless, "--seconds", "1", "--jobs", "1"),
     [1, ...["loop", "loop_in_a_builtin", "loop_in_a_write"].map(it => `${it}.js: ${stopped(6)}`), "0 met, 3 not met"]);
// The attempts at a way out succeed in a context to which objects are passed, as in page/lab: so they would notice one.
const NAIVE = `import { runInNewContext } from "node:vm"; import { readFileSync } from "node:fs";
  import { explored } from "${page}src/lab/explorer.js"; import { read, write } from "${page}src/lab/procedures.js";
  explored(runInNewContext(readFileSync(0, "utf8"), {read, write}), {writes: 1, reads: 1});`;
const naive = text => spawnSync(process.execPath, ["--input-type=module", "-e", NAIVE], {input: text, encoding: "utf8"}).stderr;
const escaped = LOOKING.filter(([, text]) => naive(text).includes("Error: ESCAPED by"));
same("ways out, if objects are passed", escaped.map(([name]) => name), ["constructors", "arguments", "stacks", "imports"]);
// They find none in the judging process, even without node's permission model.
const apart = LOOKING.map(([name, text]) => {
  const input = JSON.stringify({exercise: EXERCISE, text, bounds: {states: 1000000, milliseconds: 60000}});
  return [name, JSON.parse(spawnSync(process.execPath, [join(page, "check_one.js")], {input, encoding: "utf8"}).stdout)];
});
same("no way out", apart.filter(([, it]) => !it.isMet).map(([name, it]) => `${name}: ${it.wrong ?? it.lines.find(line => !line.is).words}`), []);
// Code that escaped its context still has no files or programs: another judge tries to write, to read, and to start a program and a thread.
const another = folderOf("another", {"package.json": '{"type": "module"}', "check_one.js": `import { spawnSync } from "node:child_process";
import { readFileSync, writeFileSync } from "node:fs"; import { Worker } from "node:worker_threads";
const tried = [() => writeFileSync("${marks[0]}", ""), () => readFileSync("${three}"), () => spawnSync("/bin/true"), () => new Worker("", {eval: true})];
const said = tried.map(it => { try { it(); return "done"; } catch (error) { return error.code; } });
console.log(JSON.stringify({wrong: [...said, Object.keys(process.env).join()].join(" ")}));`});
cpSync(join(page, "check"), join(another, "check"));
cpSync(join(page, "src/lab"), join(another, "src/lab"), {recursive: true});
const {stdout} = spawnSync(join(another, "check"), [three, folderOf("one", {"a.js": "1"})], {encoding: "utf8"});
same("what it may not", stdout.split("\n")[0].replace(/( (?:PWD|_|SHLVL|OLDPWD)(?:,(?:PWD|_|SHLVL|OLDPWD))*)?$/, ""), `a.js: not met,${" ERR_ACCESS_DENIED".repeat(4)}`);

// ---- files, reports, misuse --------------------------------------------------------------------------------------------------------------------------

const code = handIn(EXERCISE, textOf("unary_up"), "Zoë"), other = handIn({exercise: "Another"}, "x", "Eve\u202e");
const odd = folderOf("odd", {
  "a.txt": code, "b.txt": code.slice(0, -3), "c.txt": code.replace("A", "B"), "d.txt": other,
  "e.js": ` ${code.replace(/.{60}/g, "$&\r\n")}\n`, "f.txt": textOf("unary_up"), ".hidden": "x",
  "g.js": Buffer.from([255, 254]), "h.js": Buffer.alloc((1 << 20) + 1, 32),
});
mkdirSync(join(odd, "i"));
symlinkSync(join(odd, "a.txt"), join(odd, "j.txt"));
execFileSync("mkfifo", [join(odd, "k.txt")]);
const AGAIN = "copy it again, from kegbygone-1 to its last character";
same("files that are no hand-ins", checked(three, odd), [
  1, "Zoë (a.txt): not met, regular: missed, in 13 steps", `b.txt: not met, this code is cut short: ${AGAIN}`, `c.txt: not met, this code is mistyped: ${AGAIN}`,
  "Eve\\u{202e} (d.txt): not met, this is a hand-in of another exercise, Another", "Zoë (e.js): not met, regular: missed, in 13 steps",
  "f.txt: not met, this file has no code; name a file with a construction NAME.js",
  "g.js: not met, this file is not valid UTF-8", "h.js: not met, this file has more than 1048576 bytes",
  ...["i", "j.txt", "k.txt"].map(it => `${it}: not met, this is not a regular file`), "0 met, 11 not met",
]);
rmSync(join(odd, "e.js"));
const [status, ...report] = checked(three, odd, "--report", "Zoë");
same("a report", [status, ...report.map(it => it.replace(/[\d.]+ s\./, "N s."))], [
  1, "Zoë (a.txt): not met", "up to 3 writes and 2 reads: 3758 states, N s. No larger bound is promised.", "yes values: 3", "yes readers: 1",
  "yes registers that are safe or regular", "yes registers: 3 of at most 3", "yes each register takes at most 2 values", "NO  regular: missed, in 13 steps",
  "yes one operation makes at most 4 accesses: a write 3, a read 3", "", "not regular, in 13 steps:",
  "register 0 3", "W write 1", "W wrote", "W write 0", "W wrote", "W write 2", "R1 read", "R1 got 1",
]);
const recording = `${report.slice(report.indexOf("register 0 3")).join("\n")}\n`;
same("its recording, by the audit", spawnSync(program, ["audit", "--register"], {input: recording, encoding: "utf8"}).stdout.split("\n")[0], "safe");
same("by its file", checked(three, odd, "--report", "b.txt"), [1, `b.txt: not met, this code is cut short: ${AGAIN}`]);
same("one that is met", checked(three, klass, "--report", "11.js").slice(0, 2), [0, "11.js: met"]);
same("cut short by its states", checked(three, klass, "--report", "11.js", "--states", "50").filter(it => String(it).startsWith("NO ")).length, 3);
const none = folderOf("none", {}), USAGE = "page/check: usage: page/check EXERCISE.json FOLDER [--report NAME] [--seconds N] [--states N] [--jobs N]";
for (const [given, words] of [
  [[], USAGE], [[three], USAGE], [[three, odd, odd], USAGE], [[three, none], `page/check: ${none} has no hand-ins`],
  [[three, odd, "--report", "Ada"], `page/check: ${odd} has no hand-in of Ada`], [[three, odd, "--seconds", "0"], "page/check: --seconds: a whole number from 1 to 3600"],
  [[three, odd, "--states", "x"], "page/check: --states: a whole number from 1 to 10000000"],
  [[three, odd, "--jobs", "1.5"], "page/check: --jobs: a whole number from 1 to 64"],
  [[fileOf("no.json", "{}"), odd], 'page/check: field "exercise" is missing: a line of 1 to 200 characters'],
  [[join(folder, "nowhere.json"), odd], `page/check: ENOENT: no such file or directory, open '${join(folder, "nowhere.json")}'`],
]) same(`misuse: ${given.slice(1).join(" ")}`, checked(...given), [2, words]);
same("an unknown option", checked(three, odd, "--all")[0], 2);
const help = checked("--help");
same("help", [help[0], help.join("\n").includes("node:vm is not a\nsecurity boundary")], [0, true]);

rmSync(folder, {recursive: true});
console.log(`${passed} passed, ${failed} failed`);
process.exitCode = failed ? 1 : 0;
