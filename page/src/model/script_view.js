// A script, by what the proved module says about its play: its replies, its calls and their verdict, its picture. Its letters are numbered.

import { lettersOf, momentsOf } from "./letters.js";
import { effectsOfRun } from "./orders.js";
import { callsTold, recordingOf, repliesOf, tellingsOf } from "./play_recording.js";
import { callsIn, drawingOf, stepWords } from "./trace_view.js";
import { traceOf } from "../core/words.js";
import { firstLetters, readScript } from "../text/script.js";

// How many events a play has, and how many of its reads a write overlapped, each of which had an answer of the oracle.
const countOf = ({report, count}) => report?.events ?? count;
const flickersOf = ({events}) => events.filter(it => it.act === "got" && it.overlapped).length;

// What is found about the calls of a play, by letters in place of lines: the words, the places of the event at fault and of the one that
// contradicts it, and what was found; nothing if there is no call.
function callsFound(module, {calls, shape, numbers}, count) {
  if (!calls.length) return null;
  const {text, places} = recordingOf(calls, shape.capacity, count), {words, cause, line, against} = module.calls(text);
  const byLetters = it => it.replace(/line (\d+)/g, (_, number) => `letter ${numbers[places[number]]}`);
  return {
    words: `calls: ${byLetters(words)}`,
    mood: line ? "bad" : "good",
    cause: line ? byLetters(cause) : "",
    place: line ? places[line] : null,
    against: against ? places[against] : null
  };
}

const ROWS = [
  ["put", report => report.put.join(" "), "the items of puts whose count write has begun"],
  ["taken", report => report.taken.join(" "), "the items of takes that have ended"],
  ["told", report => report.told ? "yes" : "no", "whether a take returned Closed"],
  ["full", report => report.full, "puts that found the ring full"],
  ["empty", report => report.empty, "takes that found the ring empty"],
  ["events", report => report.events, "of the history"],
  ["flicker", report => report.flicker, "reads that ended and that a write overlapped"],
];

export function scriptView(module) {
  // The play of a script's first letters, by the ring or by the nearly right one that it names.
  const playOf = script => (letters, isDrawn = true) =>
    script.wrong ? module.playNear(script.wrong, script, letters, isDrawn) : module.play(script, letters, isDrawn);

  // The calls of a play, and its replies.
  function toldOf(script, play, all, numbers) {
    if (script.wrong) {
      const calls = callsTold(tellingsOf(letters => play(letters, false), all), script);
      return {calls, moments: repliesOf(calls, numbers)};
    }
    const asked = it => it.kind === "put" ? {...it, offered: script.items.slice(it.past, it.past + script.batch)}
      : it.kind === "take" ? {...it, wanted: Math.min(script.take_batch, script.takes - it.past)} : it;
    const calls = callsIn(module, traceOf(all.shape, all.events), all.events, all.events.length).map(asked);
    return {calls, moments: momentsOf(letters => play(letters, false).report, all)};
  }

  // The whole play of a script that was read.
  function wholeOf(script) {
    const play = playOf(script), none = play(0);
    if (none.refused) return none;
    const all = play(none.letters);
    if (all.refused) return all;
    const numbers = lettersOf(script.schedule, all.events), {calls, moments} = toldOf(script, play, all, numbers);
    return {...all, script, play, numbers, calls, moments, order: effectsOfRun(calls, all.shape, module.order)};
  }

  return {
    readScript: wholeOf,
    read(text) {
      const {script, refused} = readScript(text);
      return refused ? {refused} : wholeOf(script);
    },
    // What the worker reads is the script; it is played here.
    fromWorker: ({script, refused}) => refused ? {refused} : wholeOf(script),
    most: whole => whole.letters,
    first: whole => whole.letters,
    at(whole, shown) {
      const it = shown < whole.letters ? whole.play(shown) : whole, last = it.events.length - 1, {script} = whole;
      const step = whole.numbers[last] === shown ? stepWords(it.events[last], `letter ${shown}`, true)
        : shown ? `letter ${shown}: no event, its side is done`
                : "";
      const programs = script.wrong ? module.audit(traceOf(it.shape, it.events)).programs : null,
        found = callsFound(module, whole, it.events.length);
      const follows =
        programs && !programs.isRun ? `letter ${whole.numbers[programs.place]} is not of the program` : "follows the programs";
      const ring = {words: `bits: lawful, ring: ${follows}`, mood: programs && !programs.isRun ? "dim" : "good"};
      return {
        ...it,
        fault: null,
        mood: "",
        line: 0,
        words: `played ${shown} of ${whole.letters} letter${whole.letters === 1 ? "" : "s"}`,
        ring,
        found,
        counted: "letter",
        numbers: whole.numbers,
        total: whole.letters,
        step
      };
    },
    drawing: drawingOf,
    place: (whole, shown) => `letter ${shown} / ${whole.letters}`,
    rows: ({report}) => report ? ROWS.map(([name, value, title]) => [name, value(report), title]) : [],
    // What each side does with one more letter after the first `shown`: its event, and whether a write overlaps the read that it ends, so
    // that the oracle answers it; null if the side is done.
    nexts({script}, shown) {
      const play = playOf(script), before = play(shown, false);
      const next = side => {
        const it = playOf({...script, schedule: firstLetters(script.schedule, shown, side)})(shown + 1);
        return it.refused || it.events.length === countOf(before) ? null : it.events.at(-1);
      };
      return {P: next("P"), C: next("C"), answers: flickersOf(play(shown))};
    },
  };
}
