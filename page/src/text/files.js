// Files that are opened: what kind of text each has, or why it is not read.

import { KIND_WORDS, LOOKED_AT, kindOf } from "./kinds.js";
import { logRecording } from "./logs.js";
import { laidOut, withFields } from "./script.js";
import { laterTurn } from "../core/turns.js";
import { MISSES } from "../core/words.js";

const MOST_BYTES = 4000000, MOST_RECORDED = 64000000; // of a file that is opened; of one of recorded calls

const megabytes = size => `${(size / 1000000).toFixed(1)} MB`;

// The encoding that the first bytes of a file show: UTF-16 has a mark, or a zero for each letter.
function encodingOf(bytes) {
  const [first, second] = bytes;
  if (first === 0xff && second === 0xfe || second === 0 && first !== 0) return "utf-16le";
  return first === 0xfe && second === 0xff || first === 0 && second ? "utf-16be" : "utf-8";
}

// What a text of a file is: its mode, the text without carriage returns, which no editor of a browser has, and a note on it.
function readText(name, given) {
  const text = given.includes("\r") ? given.replace(/\r\n?/g, "\n") : given,
    note = `${name}${text === given ? "" : ", without its carriage returns"}`;
  const kind = kindOf(text) || "trace", wrong = MISSES.find(it => name === `${it.replaceAll("-", "_")}.json`);
  if (kind === "log") {
    const calls = logRecording(text).text;
    return {mode: "calls", text: calls ?? text, note: calls === undefined ? note : `${note}, the calls of a log`};
  }
  return {mode: kind, text: kind === "script" && wrong ? withFields(laidOut(text), {wrong}) : text, note};
}

// What a file has: {mode, text, note}; or, if it is not read, the `note` that says why, and an `offer` of what may be done instead.
export async function readFile(file) {
  const front = await file.slice(0, LOOKED_AT).arrayBuffer(), encoding = encodingOf(new Uint8Array(front)),
    decoder = new TextDecoder(encoding, {ignoreBOM: encoding === "utf-8"});
  const kind = kindOf(decoder.decode(front)), most = kind === "calls" || kind === "log" ? MOST_RECORDED : MOST_BYTES;
  if (file.size > most) {
    const what = kind ? ` with ${KIND_WORDS[kind]}` : "";
    return {
      note: `${file.name} has ${megabytes(file.size)}: of a file${what} this page opens at most ${
        megabytes(most)}. The program reads any length: lamport_ring audit`
    };
  }
  const text = decoder.decode(await file.arrayBuffer());
  await laterTurn(); // (50 MB took a while)
  if (encoding === "utf-8") return readText(file.name, text);
  const {mode, text: its} = readText(file.name, text);
  return {
    note:
      `${file.name} is in UTF-16, and the formats are in ASCII. PowerShell writes so with >; this writes UTF-8: | Out-File -Encoding utf8 ${
        file.name}`,
    offer: {words: `As UTF-8 this is ${KIND_WORDS[mode]}.`, label: "Open it so", mode, text: its}
  };
}
