// Tests what the page's module finds in recordings of registers, under node: for each of examples/registers the verdict beside it, and the
// report if there is one; the numbers behind the words; texts that are not recordings; and 2,000 random recordings, against $PROGRAM audit --register.
// The last line is `N passed, M failed`.
import { execFileSync, spawnSync } from "node:child_process";
import { existsSync, readFileSync, readdirSync } from "node:fs";
import { fileURLToPath } from "node:url";
import { setFlagsFromString } from "node:v8";
import { openModule } from "../src/core/module.js";

const here = new URL(".", import.meta.url), folder = new URL("../../examples/registers/", here);
const program = process.env.PROGRAM ?? execFileSync(fileURLToPath(new URL("../../lamport_ring", here)), ["--which"], {encoding: "utf8"}).trim();
let passed = 0, failed = 0;

function same(what, got, want) {
  if (JSON.stringify(got) === JSON.stringify(want)) return passed++;
  failed++;
  console.log(`${what}: got ${JSON.stringify(got)}, want ${JSON.stringify(want)}`);
}

// What `audit --register` would print for what the module finds.
function printed({refused, words, class: name, misses, isCut}) {
  if (refused) return `refused: ${refused}\n`;
  if (words.startsWith("fault")) return `${words}\n${isCut ? "cut yes\n" : ""}`;
  return `${[name ?? "not safe", ...misses.map(it => `not ${it.class}: ${it.words}`)].join("\n")}\n${isCut ? "cut yes\n" : ""}`;
}

const reported = ({report: {writes, reads, overlapped, by_several, could_invert}}) =>
  [`writes ${writes}`, `reads ${reads}`, `overlapped ${overlapped}`, `by several ${by_several}`, `could invert ${could_invert}`];

// A random recording of two readers; most of its events are in turn.
function randomRecording(random) {
  const among = list => list[Math.floor(random() * list.length)], open = new Set();
  const lines = [random() < 0.5 ? "register 0 3" : "register 1"];
  for (let i = Math.floor(random() * 30); i >= 0; i--) {
    const side = among(["W", "R1", "R2"]), isOpen = open.has(side) !== random() < 0.01;
    if (isOpen) open.delete(side);
    else open.add(side);
    lines.push(side === "W" ? isOpen ? "W wrote" : `W write ${among([0, 1, 2])}` : isOpen ? `${side} got ${among([0, 0, 1, 1, 2])}` : `${side} read`);
  }
  return `${lines.join("\n")}\n`;
}

// Pseudo-random numbers from 0 to 1, the same in each run.
function drawnBy(seed) {
  return () => {
    seed = seed * 1103515245 + 12345 & 0x7fffffff;
    return seed / 0x80000000;
  };
}

// Before version 24, node has 64-bit memory only behind a flag.
if (Number(process.versions.node.split(".")[0]) < 24) setFlagsFromString("--experimental-wasm-memory64");
const module = await openModule(readFileSync(new URL("../src/made/ring_page.wasm", here)));

for (const file of readdirSync(folder).filter(it => it.endsWith(".reg")).sort()) {
  const text = readFileSync(new URL(file, folder), "utf8"), beside = end => new URL(file.replace(/reg$/, end), folder), it = module.register(text);
  const verdict = readFileSync(beside("verdict"), "utf8"), report = existsSync(beside("report")) ? readFileSync(beside("report"), "utf8") : null;
  same(file, printed(it).replace(/cut yes\n$/, ""), verdict.split("\n").filter(line => !/^(cut yes$|[a-z]+ .*at byte )/.test(line)).join("\n"));
  if (report !== null) same(`${file}, its report`, reported(it), report.split("\n").filter(line => /^(writes|reads|overlapped|by several|could invert) \d/.test(line)));
}

const chain = module.register(readFileSync(new URL("equal_values.reg", folder), "utf8")).misses.at(-1);
same("the reads of a chain", chain.reads, [{reader: 1, line: 8, value: "0", written: 7}, {reader: 1, line: 4, value: "1", written: 2}]);
same("since when another value was held", module.register("register 0 2\nW write 1\nW wrote\nR1 read\nR1 got 0\n").misses[0].since, 3);
same("no recording", [module.register(""), module.register("register 0\nW read\n")].map(it => [it.refused, it.line]),
  [["register line 1 is not a line of the format", 1], ["register line 2 is not a line of the format", 2]]);

const random = drawnBy(7), classes = new Map();
for (let i = 0; i < 2000; i++) {
  const text = randomRecording(random), it = module.register(text), said = spawnSync(program, ["audit", "--register"], {input: text, encoding: "utf8"}).stdout;
  same(`of ${JSON.stringify(text)}`, printed(it), said);
  classes.set(it.words.replace(/\d+/, "N"), (classes.get(it.words.replace(/\d+/, "N")) ?? 0) + 1);
}
for (const name of ["not safe", "safe", "regular", "atomic by reader", "atomic", "fault: line N: out of turn"])
  same(`random recordings, ${name}`, (classes.get(name) ?? 0) >= 5, true);
console.log(`${passed} passed, ${failed} failed`);
process.exitCode = failed ? 1 : 0;
