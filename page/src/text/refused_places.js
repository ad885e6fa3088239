// The place in a text of what is refused: the module's words and numbers, looked up in the text that was read.

const STRING = /"(?:[^"\\\u0000-\u001f]|\\(?:["\\/bfnrt]|u[0-9a-fA-F]{4}))*"/.source;
const OTHERS = /-?(?:0|[1-9]\d*)(?:\.\d+)?(?:[eE][+-]?\d+)?|true|false|null/.source;
const TOKEN = new RegExp(`[ \\t\\n\\r]*(?:([{}[\\],:])|(${STRING})|${OTHERS})`, "y");
const SPACE = /[ \t\n\r]*/y;

// What may come next in JSON; after a value, what its object or array goes on with.
const NEXT = {
  value: "a value",
  first: "a value or ]",
  name: "a name",
  firstName: "a name or }",
  colon: ":",
  more: ", or ]",
  moreFields: ", or }",
  end: "the end"
};

const MOST_TOKENS = 1000000; // of JSON that are looked at

// The first place at which a text stops being JSON, and what was expected there; null if that is far from its start.
export function jsonStop(text) {
  const open = [];
  let due = "value", at = 0, tokens = 0;
  const after = () => open.length === 0 ? "end" : open.at(-1) === "[" ? "more" : "moreFields";
  for (;;) {
    SPACE.lastIndex = TOKEN.lastIndex = at;
    const start = at + SPACE.exec(text)[0].length, token = TOKEN.exec(text), [, mark, string] = token ?? [];
    const stop = {from: start, to: Math.min(text.length, start + 1), due: NEXT[due]};
    if (!token) return stop;
    if (++tokens > MOST_TOKENS) return null;
    at = TOKEN.lastIndex;
    const wantsValue = due === "value" || due === "first", wantsName = due === "name" || due === "firstName";
    if (wantsValue && (mark === "{" || mark === "[")) {
      open.push(mark);
      due = mark === "{" ? "firstName" : "first";
    } else if (wantsValue && mark === undefined || mark === "]" && (due === "first" || due === "more")
      || mark === "}" && (due === "firstName" || due === "moreFields")) {
      if (mark) open.pop();
      due = after();
    } else if (wantsName && string) due = "colon";
    else if (due === "colon" && mark === ":") due = "value";
    else if (mark === "," && due === "more") due = "value";
    else if (mark === "," && due === "moreFields") due = "name";
    else return stop;
  }
}

// The stretch of a line, counted from 1, or of the end of the text if it has no such line.
function lineAt(text, line) {
  let from = 0;
  for (let before = 1; before < line; before++) from = text.indexOf("\n", from) + 1 || text.length;
  const end = text.indexOf("\n", from);
  return {from, to: end < 0 ? text.length : end};
}

// What the first line of a text is to be, and what the further ones.
const LINES = {
  trace: {
    first: "shape CAPACITY MODULUS WIDTH",
    further: ": S read BIT, S got BIT V, S write BIT V, S wrote BIT; or its bit is not in the shape"
  },
  register: {
    first: "register FIRST or register FIRST VALUES, or one of these after cut",
    further: ": W write V, W wrote, Ri read, Ri got V, with numbers below 2^64 that begin with no 0; or it writes no value of the register"
  },
  calls: {
    first: "queue B, queue A B or queue, or one of these after cut",
    further: " the lines of recorded calls, with numbers below 2^64 that begin with no 0"
  }
};

// The cause; for a trace, in the words of docs/FORMATS.md, "What a refusal says".
function causeIn(mode, text, line) {
  const {from, to} = lineAt(text, line), it = text.slice(from, to), {first, further} = LINES[mode];
  if (text === "") return `there is no text: line 1 is to be: ${first}`;
  if (line === 1 && /^\s*\{/.test(text)) return "it looks like a script";
  if (line === 1 && /^shape /.test(text) && mode !== "trace") return "it looks like a trace";
  if (line === 1 && /^(cut )?queue\b/.test(text) && mode !== "calls") return "it looks like recorded calls";
  if (line === 1 && /^(cut )?register\b/.test(text) && mode !== "register") return "it looks like a recorded register";
  const cause = it === "" ? "is empty" : it.endsWith(" ") ? "ends in a space" : it.startsWith(" ") ? "begins with a space"
    : to === text.length ? "has no line feed at its end, or is not a line of the format"
    : line === 1 ? `is not: ${first}` : `is none of${further}`;
  return `line ${line} ${cause}`;
}

// The stretch of a field of a script's text: its value if that is a number, a word, a list or a text without escapes.
function fieldIn(text, name) {
  const it = new RegExp(`"${name}"\\s*:\\s*(?:"[^"]*"|\\[[^\\]]*\\]|[^,}\\s]+)`).exec(text);
  return it && {from: it.index, to: it.index + it[0].length, value: it.index + it[0].length - it[0].replace(/^"\w+"\s*:\s*/, "").length};
}

// The place of what is refused: {from, to, cause}, or null if it has none.
export function placeOf(mode, text, {refused, line}) {
  if (mode === "lab") return line ? {...lineAt(text, line), cause: ""} : null;
  if (mode !== "script") return line ? {...lineAt(text, line), cause: causeIn(mode, text, line)} : null;
  if (refused === "script is not JSON") {
    const stop = jsonStop(text);
    if (!stop) return null;
    const {from, to, due} = stop;
    const cause = text.trim() === "" ? "there is no text"
      : text.startsWith("shape ")    ? "it looks like a trace"
      : /^(cut )?queue\b/.test(text) ? "it looks like recorded calls"
                                     : `here was to come: ${due}`;
    return {from, to, cause};
  }
  const name = /^field (\w+) (?!is missing)|^(capacity|modulus|width|batch|take batch) must|^(item|schedule|oracle)\b/.exec(refused);
  const it = name && fieldIn(text, name[1] ?? name[2]?.replace(" ", "_") ?? name[3].replace("item", "items"));
  if (!it) return null;
  const [, item] = /^item (\d+) /.exec(refused) ?? [], [, byte] = /is wrong at byte (\d+)$/.exec(refused) ?? [];
  if (byte !== undefined && !text.slice(it.from, it.to).includes("\\")) {
    const from = it.value + 1 + Number(byte);
    return {from, to: Math.min(from + 1, it.to), cause: ""};
  }
  if (item !== undefined) {
    const numbers = [...text.slice(it.value, it.to).matchAll(/[^[\],\s]+/g)], one = numbers[Number(item)];
    if (one) return {from: it.value + one.index, to: it.value + one.index + one[0].length, cause: ""};
  }
  return {from: it.from, to: it.to, cause: ""};
}

// The line that a place is in, cut to what is around it: {line, column, before, at, after}.
export function excerpt(text, {from, to}) {
  const begin = text.lastIndexOf("\n", from - 1) + 1, end = text.indexOf("\n", from), last = end < 0 ? text.length : end;
  const cut = (it, side) => it.length <= 40 ? it : side ? `${it.slice(0, 40)} ..` : `.. ${it.slice(-40)}`;
  return {line: text.slice(0, from).split("\n").length, column: from - begin + 1, before: cut(text.slice(begin, from), 0),
    at: cut(text.slice(from, Math.min(to, last)), 1), after: cut(text.slice(Math.min(to, last), last), 1)};
}
