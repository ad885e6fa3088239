// What the module's numbers on a recorded register mean, in the words of `audit --register`.

const CLASSES = ["safe", "regular", "atomic by reader", "atomic"];
const READ = 5, READS = 8, MISS = 8 + READ * READS; // numbers of an earlier read, how many there are, and numbers of a class that is missed
const HEAD = 10; // numbers before the first of them
export const REGISTER_NUMBERS = HEAD + MISS * CLASSES.length;

const REFUSALS = ["", line => `register line ${line} is not a line of the format`, () => "register has too many lines",
  () => "this recording needs more room than the page has"];

// The line of the event at a place.
const lineAt = place => Number(place) + 2;

function readAt(numbers, at) {
  const [isThere, reader, ended, value, written] = numbers.slice(at, at + READ);
  return isThere ? {reader: Number(reader) + 1, line: lineAt(ended), value: String(value), written: lineAt(written)} : null;
}

// The earlier reads that contradict one, in words.
function readsWords([first, ...others], isCut) {
  if (!first) return ", but an earlier read gave a later value";
  const {reader, line, value, written} = first;
  const further = others.map(
    it => `; for the read of R${it.reader} that ended at line ${it.line} can be of no write before that of line ${it.written}`);
  return `, but a read of R${reader} that ended at line ${line} gave the later value ${value}, of line ${written}${further.join("")}${
    isCut ? "; .." : ""}`;
}

// A class that is missed: its first line, and why. Null if it is not.
function missAt(numbers, at, name) {
  const [line, reader, value, reason, held, isSince, since] = numbers.slice(at, at + 7);
  if (!line) return null;
  const reads = Array.from({length: READS}, (_, i) => readAt(numbers, at + 7 + i * READ)).filter(it => it);
  const sinceLine = isSince ? lineAt(since) : 0;
  const why = ["", ", which is no value of the register",
    `, but no write overlapped the read, and the register held ${held} since ${sinceLine ? `line ${sinceLine}` : "the start"}`,
    `, but neither the last write before the read nor one that overlapped it wrote ${value}`,
    readsWords(reads, numbers[at + MISS - 1] === 1n)][Number(reason)];
  return {
    class: name, line: Number(line), reader: Number(reader) + 1, value: String(value), since: sinceLine, reads,
    words: `line ${line}: R${reader + 1n} got ${value}${why}`,
  };
}

// A class that is missed on the line of one of these has no line of its own.
const SAME_AS = {safe: [], regular: ["safe"], "atomic by reader": ["regular", "atomic"], atomic: ["regular"]};

// What is found about a recorded register: {refused, line}, or {words, class, line, isCut, misses, report}. `class` is the strongest one,
// or null if it has none or an event is out of turn, on this `line`; otherwise the line is 0. `misses` has the classes that are missed and
// that the program prints, from the weakest on: {class, line, reader, value, since, reads, words}, with the line that ends the read at
// fault, since which line the register held another value, or 0, and the earlier reads that contradict it, {reader, line, value, written}.
export function registerFinding(numbers) {
  const [outcome, number, line, best, cut, writes, reads, overlapped, bySeveral, couldInvert] = numbers;
  if (outcome === 2n) return {refused: REFUSALS[Number(number)](line), line: Number(line)};
  const all = CLASSES.map((name, i) => missAt(numbers, HEAD + i * MISS, name)).filter(it => it),
    misses = all.filter(it => !all.some(other => SAME_AS[it.class].includes(other.class) && other.line === it.line)),
    name = CLASSES[Number(best) - 1] ?? null;
  const report = {writes, reads, overlapped, by_several: bySeveral, could_invert: couldInvert};
  return {
    words: outcome === 1n ? `fault: line ${line}: out of turn` : name ?? "not safe",
    class: name, line: Number(line), isCut: cut === 1n, misses,
    report: Object.fromEntries(Object.entries(report).map(([key, count]) => [key, String(count)])),
  };
}
