// Logs of other tests of queues: an operation to a line, as JSON or as the EDN of
// Jepsen, {"process":0,"type":"invoke","f":"enqueue","value":1} or
// {:process 0, :type :invoke, :f :enqueue, :value 1}. As record/convert does: docs/FORMATS.md, "Logs of other tests".

const TOKEN_OF_EDN = /"(?:[^"\\]|\\.)*"|#\{|[[\](){}]|[^\s,[\](){}"]+/g;
export const ANY_QUEUE = "queue 0 18446744073709551615"; // full at any time, and holding any number
const BEGINS_OF = {enqueue: ["P", "put"], dequeue: ["C", "take"], close: ["P", "close"]};
const ENDS_OF = {enqueue: {ok: "P stored", fail: "P full"}, dequeue: {ok: "C item", fail: "C empty"}, close: {ok: "P closed"}};

// The words at the top of an EDN map, by their keys; what is in brackets counts as one.
function ednOf(line) {
  const words = [];
  let depth = 0;
  for (const [token] of line.matchAll(TOKEN_OF_EDN)) {
    const opens = /^(?:#\{|[[({])$/.test(token), closes = /^[\])}]$/.test(token);
    if (depth === 1 && !closes) words.push(opens ? "[]" : token);
    depth += opens ? 1 : closes ? -1 : 0;
  }
  return Object.fromEntries(Array.from({length: words.length >> 1}, (_, i) => [words[2 * i], words[2 * i + 1]]));
}

// The operation of a line: {process, type, f, value}, or null if it is not a line of a log. It may have a tag before it, and be in a list.
function operationIn(line) {
  line = line.replace(/^\s*#[\w.]+(?=\{)/, "").replace(/\}\s*[\]),]+\s*$/, "}");
  let it;
  try {
    // (an item may have more digits than a number of JavaScript)
    it = /^\s*\{\s*:/.test(line) ? ednOf(line) : JSON.parse(line.replace(/("value"\s*:\s*)(\d+)/, '$1"$2"'));
  } catch {
    return null;
  }
  const of = name => String(it?.[name] ?? it?.[`:${name}`] ?? "nil").replace(/^:/, "");
  return it === null || typeof it !== "object" || of("type") === "nil" || of("process") === "nil"
    ? null
    : Object.fromEntries(["process", "type", "f", "value"].map(name => [name, of(name)]));
}

// A log that is one list of JSON, over any lines, with each operation in a line of its own; and any other text as it is.
export function inLines(log) {
  if (!/^\s*\[\s*\{/.test(log)) return log;
  try {
    const all = JSON.parse(log.replace(/("value"\s*:\s*)(\d+)/g, '$1"$2"'));
    return all.every(it => it !== null && typeof it === "object") ? all.map(it => JSON.stringify(it)).join("\n") : log;
  } catch {
    return log;
  }
}

export const isLog = line => /^\s*[[(]?\s*(?:#[\w.]+)?\{/.test(line) && operationIn(line.replace(/^\s*[[(]\s*(?=[{#])/, "")) !== null;

// The calls of a log, as recorded calls: {text}, or {refused}, why not.
export function logRecording(log) {
  const lines = [], open = new Map(), processes = {}, refused = (number, words) => ({refused: `line ${number} ${words}`});
  let isEverFull = false;
  for (const [at, given] of inLines(log).replace(/^\uFEFF/, "").replace(/^\s*[[(](?=\s*[{#])/, "").split("\n").entries()) {
    if (/^[\s\])]*$/.test(given) || /^\s*;/.test(given)) continue;
    const it = operationIn(given), number = at + 1;
    if (!it) return refused(number, "is not an operation with :process, :type, :f and :value, as JSON or EDN");
    const {process, type, f, value} = it;
    if (!/^\d+$/.test(process)) continue; // of a nemesis
    if (!Object.hasOwn(BEGINS_OF, f)) return refused(number, `has the function ${f}, but only enqueue, dequeue and close are supported`);
    const [side, word] = BEGINS_OF[f], before = processes[side] ??= process;
    if (before !== process)
      return refused(number,
        `has process ${process}, and process ${before} ${
          side === "P" ? "puts" : "takes"} too: a recording has one producer and one consumer`);
    const isItem = /^(?:0|[1-9]\d{0,19})$/.test(value) && BigInt(value) < 2n ** 64n;
    if (type === "invoke") {
      if (open.has(side))
        return refused(number, `begins a call of process ${process}, but its call of line ${open.get(side).number} has not ended`);
      if (f === "enqueue" && !isItem) return refused(number, `enqueues ${value}, but an item must be a number below 2^64`);
      open.set(side, {f, number});
      lines.push(f === "enqueue" ? `P put ${value}` : `${side} ${word}`);
      continue;
    }
    if (open.get(side)?.f !== f) return refused(number, `ends a ${f} of process ${process}, which has none under way`);
    if (type === "info") continue; // it may take effect at any time, and never ends
    const end = ENDS_OF[f][type];
    if (!end) return refused(number, `has the type ${type}, which is not supported for ${f}`);
    if (end === "C item" && !isItem) return refused(number, `dequeues ${value}, but an item must be a number below 2^64`);
    open.delete(side);
    isEverFull ||= end === "P full";
    lines.push(end === "C item" ? `C item ${value}` : end);
  }
  return {text: [isEverFull ? ANY_QUEUE : "queue", ...lines, ""].join("\n")};
}
