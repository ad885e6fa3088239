// Runs in a worker, with its own instance of the module: what needs more time than a step of the page may take. The page gives the bytes
// of the module, and a text, and asks by numbers; each answer has the number of its question.

import { openModule } from "./core/module.js";
import { recordingFound } from "./model/recording.js";
import { habitsFor } from "./model/habits.js";
import { shrunk } from "./model/shrinking.js";
import { readScript } from "./text/script.js";

const MOST_TIME = 5000; // milliseconds that are spent on a small recording

let opening, given = "", found = null; // the module; the text; what is found about it, once it was asked for

const recording = module => found ??= recordingFound(module, given);

const answers = {
  // A copy of the lines goes to the page, as both need them at each step.
  read(module, {mode}) {
    if (mode === "script") return readScript(given);
    const {text, lines, ...all} = recording(module), isList = it => it instanceof Int32Array;
    return {...all, lines: Object.fromEntries(Object.entries(lines).map(([name, it]) => [name, isList(it) ? it.slice() : it]))};
  },
  report(module, {line}) {
    const {lines} = recording(module);
    return module.calls(given, lines.starts[line + 1]).report;
  },
  hints(module) {
    const all = recording(module);
    return habitsFor(module, given, all.lines, all);
  },
  shrink(module, {number}) {
    const until = performance.now() + MOST_TIME, all = recording(module);
    return shrunk(module, given, all.lines, all, () => performance.now() > until, count => postMessage({number, count}));
  },
};

onmessage = async ({data}) => {
  if (data.bytes) opening = openModule(data.bytes);
  const module = await opening;
  if (data.text !== undefined) [given, found] = [data.text, null];
  if (!data.asks) return;
  const answer = answers[data.asks](module, data), lists = Object.values(answer.lines ?? {}).filter(it => it instanceof Int32Array);
  postMessage({number: data.number, answer}, lists.map(it => it.buffer));
};
