// Two recordings, one under the other: the one that is shown, and one that was kept, at its own fault, or at its end if it is lawful. Only
// the text, the heading and the picture of the kept one are left.

import { $, node } from "../core/dom.js";
import { put, textFor } from "../draw/frame.js";
import { keepNames } from "../draw/row_names.js";
import { CUT } from "../text/recorded_lines.js";

const ROWS = 4; // that are drawn of each of the two, at most

// A heading: the name of a recording, the module's verdict on the whole of it, and how many lines it has.
function fillHead(head, {refused, words, line, isCut, lines}, name, note = "") {
  const verdict = refused ? [node("span", `refused: ${refused}`, "bad")] : [
    node("span", words, line ? "bad" : "good"), ...isCut ? [node("span", CUT)] : [],
    node("span", `${lines.count} line${lines.count === 1 ? "" : "s"}`)
  ];
  head.replaceChildren(node("strong", name), ...verdict, ...note ? [node("span", note)] : []);
}

// The name of a text, for a reader.
const nameOf = ({example, file}) => example || file || "recording";

// The pane. `acts` has `open`, which shows a text, `redraw`, and `aspect`, of the room of a picture. The kept one is shown neither
// in a course nor with the picture alone.
export function comparisonPane(acts) {
  let second = null, state = null, now = null; // what puts the kept one into the editor again
  const isOn = () => second !== null && state.mode === "calls" && state.course === null && !state.isLarge;
  const rows = () => isOn() ? {rows: ROWS} : {};

  const keep = () => {
    const {whole, view} = now, opens = view.first(whole), {text, example, file, lesson} = state;
    second = {text, example, file, lesson};
    const drawn = textFor(view.drawing(whole, view.at(whole, opens), "", opens), {aspect: acts.aspect(2), ...rows()});
    put($("under"), drawn.text, {...drawn.attributes, role: "img"});
    $("under").firstElementChild.style.setProperty("--breadth", drawn.width);
    fillHead($("underhead"), whole, nameOf(state), "kept");
  };
  $("compare").onclick = () => {
    keep();
    acts.redraw();
  };
  $("swap").onclick = () => {
    const other = second;
    keep();
    acts.open("calls", other);
  };
  $("leave").onclick = () => {
    second = null;
    for (const id of ["under", "underhead", "undernames"]) $(id).replaceChildren();
    acts.redraw();
  };

  return {
    isOn, rows,
    keepNames: () => isOn() && keepNames($("under").querySelector("svg"), $("undernames")),
    render(newState, newNow) {
      [state, now] = [newState, newNow];
      document.body.classList.toggle("beside", isOn());
      if (!isOn()) return;
      $("swap").disabled = now.isRefused;
      if (now.it.pending) return $("upper").firstElementChild.replaceChildren(node("strong", nameOf(state)), node("span", "auditing"));
      fillHead($("upper").firstElementChild, now.whole, nameOf(state),
        state.text === second.text ? "the kept one itself: open, paste, shrink or edit another" : "");
    },
  };
}
