// What an author of a queue has beside recorded calls: how many items were inside over the whole run, ways from line to line, what is
// inside at the cursor, what a habit may explain about a fault, and a small recording with the same fault.

import { showContents } from "./contents.js";
import { finderOf } from "./finder.js";
import { $, node } from "../core/dom.js";
import { saveAs } from "../core/saving.js";
import { laterTurn } from "../core/turns.js";
import { stripIn } from "../draw/strip.js";
import { rowsAtLine } from "../model/items_in_recording.js";
import { reportRows } from "../text/recorded_lines.js";

const MANY_LINES = 500000; // from which on the strip of a recording takes its time
const REST = 200; // milliseconds after the last step or edit, before the worker is asked

const buttonOf = (label, does) => Object.assign(node("button", label), {type: "button", onclick: does});

// Shows what may explain a fault, each with what the module finds in the recording changed accordingly; `open` puts that into the editor.
function showHabits(habits, open) {
  $("hints").replaceChildren(...habits.map(({words, label, text, found}) => {
    const then = found.line ? `Then the first fault is in line ${found.line}: ${found.cause}. ` : "Then it is lawful. ",
      row = node("p", `${words} ${then}`);
    row.append(buttonOf(label, () => open("calls", {text})));
    return row;
  }));
}

// The button that looks for a small recording with the same fault, or stops that. The result has `end`, for another recording, and `of`,
// which names the one that is shown.
function shrinkingOf({asker, open}) {
  let text = "", name = "", isOn = false;
  const end = (...row) => {
    isOn = false;
    $("shrink").textContent = "Shrink";
    $("shrunk").replaceChildren(...row);
  };
  const stop = () => {
    if (isOn) asker.stop();
    end();
  };
  const showSmall = it => end(`${it.lines} lines${it.isSpent ? ", so far" : ""}: ${it.words} `,
    buttonOf("Show", () => open("calls", {text: it.text})), buttonOf("Save", () => saveAs(`${name}.small.calls`, it.text)));
  $("shrink").onclick = () => {
    if (isOn) return stop();
    isOn = true;
    $("shrink").textContent = "Stop";
    $("shrunk").textContent = "looking ..";
    const isAsked = asker.ask(text, "shrink", {}, showSmall, count => $("shrunk").textContent = `looking .. ${count} lines so far`);
    if (!isAsked) end("This browser lets no worker run here: record/shrink looks for it.");
  };
  return {end: stop, of: (itsText, itsName) => [text, name] = [itsText, itsName]};
}

// The pane, over an asker (asker.js). `acts` has `stepToLine`, `open`, and `fillReport`. The result has the `keys` of recorded calls.
export function authorPane(acts, asker) {
  const strip = stripIn($("strip"), acts.stepToLine), finder = finderOf(acts.stepToLine), shrinking = shrinkingOf({asker, open: acts.open});
  let text = null, explained = null, at = 0, resting = 0, inStrip = null; // what is shown; whose habits were asked for; the cursor

  // What a step needs from the worker, once no other follows.
  const ask = (whole, it, line, until) => {
    if (whole.line && explained !== text) asker.ask(explained = text, "hints", {}, habits => showHabits(habits, acts.open));
    if (it.report) return;
    asker.ask(text, "report", {line: until}, report => at === line && report && acts.fillReport(reportRows(report, whole.isCut)));
  };

  return {
    keys: finder.keys,
    render({mode, example}, {whole, it, shown, isRefused}) {
      const isShown = mode === "calls" && !isRefused, line = shown + 1, of = isShown ? whole.text : null;
      clearTimeout(resting);
      $("author").hidden = $("strip").hidden = !isShown;
      finder.show(isShown ? whole : null, line);
      if (of !== text) {
        shrinking.end();
        $("hints").replaceChildren();
        explained = null;
      }
      text = of;
      at = line;
      if (!isShown) return;
      const {lines} = whole, until = Math.min(line, whole.line ? whole.line - 1 : lines.count);
      const show = () => strip.show({text, lines, line, fault: whole.line, against: whole.against});
      if (lines.count > MANY_LINES && inStrip !== lines) laterTurn().then(() => inStrip === lines && show());
      else show();
      inStrip = lines;
      $("shrink").hidden = !whole.line;
      shrinking.of(text, example || "recording");
      showContents(rowsAtLine(text, lines, until));
      resting = setTimeout(() => ask(whole, it, line, until), REST);
    },
  };
}
