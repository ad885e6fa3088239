// What kind of text one is, as any of its lines shows; what keeps a recording from being read, and the text without that. The module says
// whether a text is in its format.

import { ANY_QUEUE, isLog, logRecording } from "./logs.js";

const LINES_OF = {
  calls: new RegExp(
    "^(?:(?:cut )?queue\\b|P (?:put \\d|(?:stored|some|full|short|nothing|closed?)\\b)"
    + "|C (?:take|item|some|empty|short|nothing|closed)\\b)"),
  trace: /^(?:shape \d|[PC] (?:read|got|write|wrote) )/,
  register: /^(?:(?:cut )?register \d|W (?:write \d|wrote\b)|R\d+ (?:read\b|got \d))/,
};
// A construction begins with ({ after comments of JavaScript.
const CONSTRUCTION = /^(?:\s|\/\/.*(?:\n|$)|\/\*(?:[^*]|\*(?!\/))*\*\/)*\(\{/;
const COMMENT = /^\s*(?:#|\/\/|;|--|%|$)/;
export const LOOKED_AT = 20000; // characters in which the first line is sought that shows the kind
export const KIND_WORDS = {trace: "a trace", script: "a script", calls: "recorded calls", register: "a recorded register",
  lab: "a construction of a register", exercise: "an exercise", log: "a log of another test"};

// What kind of text it is, or "" if no line shows it.
export function kindOf(text) {
  const front = text.slice(0, LOOKED_AT).replace(/^\uFEFF/, ""), [, first] = /^\s*\[\s*(\{[^{}]*\})/.exec(front) ?? [];
  if (first && isLog(first.replace(/\s+/g, " "))) return "log";
  if (/^\s*\{\s*"exercise"\s*:/.test(front)) return "exercise";
  if (CONSTRUCTION.test(front.replace(/\r\n?/g, "\n"))) return "lab";
  const lines = front.split(/\r\n|\r|\n/);
  for (const it of lines) {
    const kind = Object.keys(LINES_OF).find(kind => LINES_OF[kind].test(it.trimStart()));
    if (kind) return kind;
    if (isLog(it)) return "log";
    if (/^\s*\{/.test(it)) return "script";
  }
  return "";
}

// The first line with which a recording without one is lawful, if there is one, as record/head finds it: never full if no call reports it,
// and otherwise the least number that was surely inside. Only the author knows what the queue really holds.
function headFor(body, module) {
  const {report} = module.calls(`${ANY_QUEUE}\n${body}`);
  if (!report || report.full === "0") return "queue";
  const least = report.surely === "0" ? "1" : report.surely;
  return [`queue ${least}`, `queue 0 ${least}`].find(head => module.calls(`${head}\n${body}`).report) ?? "queue";
}

// What keeps a recording from being read that can be mended without its author, and the text without that: {causes, text}.
export function mended(text, module) {
  const causes = [], told = (words, made) => {
    if (made !== text) causes.push(words);
    text = made;
  };
  told("begins with a byte order mark", text.replace(/^\uFEFF/, ""));
  told("has carriage returns", text.replace(/\r\n?/g, "\n"));
  told("has spaces at the ends of lines", text.replace(/^[ \t]+|[ \t]+$/gm, ""));
  const lines = text.split("\n"), kept = lines.filter(it => !COMMENT.test(it)),
    gone = lines.length - kept.length - (text.endsWith("\n") ? 1 : 0);
  if (text !== "" && !text.endsWith("\n")) causes.push("has no line feed at its end");
  if (gone > 0) causes.push(gone === 1 ? "has a line that is a comment, or empty" : `has ${gone} lines that are comments, or empty`);
  text = kept.length ? `${kept.join("\n")}\n` : "";
  if (LINES_OF.calls.test(text) && !/^(?:cut )?queue\b/.test(text)) {
    const head = headFor(text, module);
    causes.push(`has no first line that describes its queue: "${head}" is put there; only you know what the queue holds`);
    text = `${head}\n${text}`;
  }
  return {causes, text};
}

// What is offered beside a text that is refused in this mode: [{words, label, mode, text}].
export function offersFor(mode, text, module) {
  const kind = kindOf(text), offers = [];
  if (kind === "log") {
    const it = logRecording(text);
    offers.push(it.refused ? {words: `This looks like ${KIND_WORDS.log}, but ${it.refused}.`}
                           : {words: `This looks like ${KIND_WORDS.log}.`, label: "Open its calls", mode: "calls", text: it.text});
  } else if (kind && kind !== mode)
    offers.push({words: `This looks like ${KIND_WORDS[kind]}.`, label: `Open as ${KIND_WORDS[kind]}`, mode: kind, text});
  else if (kind === "calls" || kind === "register") {
    const it = mended(text, module);
    if (it.causes.length) offers.push({words: `This recording ${it.causes.join("; it ")}.`, label: "Mend it", mode, text: it.text});
  }
  return offers;
}
