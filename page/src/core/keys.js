// The keys of the page. Those of one letter can be switched off, for whoever speaks to the computer.

import { $ } from "./dom.js";

const KEPT = "keys of one letter"; // what the choice is kept by
const CLICKER = /^Page(Up|Down)$/; // the keys of a clicker, which a field does not take

// What the browser does with a key in an element of its own.
const OWN = [
  ["select", /^(?!Arrow(Left|Right)$)/], ["input[type=range]", /^(Arrow|Home|End)/], ["input[inputmode]", /./],
  ["input[type=checkbox]", / /]
];

// Opens a closed list, in which the browser would choose the next item; once something is chosen, its keys are the page's again.
function listenToLists() {
  for (const list of document.querySelectorAll("select")) {
    list.addEventListener("change", () => list.blur());
    list.addEventListener("keydown", event => {
      if (event.key !== "ArrowDown" && event.key !== "ArrowUp") return;
      event.preventDefault();
      list.showPicker?.();
    });
  }
}

// Listens to keys: those that are always there, and those of a play or of recorded calls, as `mode` says. A letter's capital is the letter,
// but with Shift it may have a meaning of its own.
export function listenToKeys(mode, {always, ofPlay, ofCalls}) {
  const isOn = () => $("letters").checked;
  $("letters").checked = localStorage.getItem(KEPT) !== "off";
  $("letters").onchange = () => localStorage.setItem(KEPT, isOn() ? "on" : "off");
  listenToLists();
  addEventListener("keydown", event => {
    if (event.ctrlKey || event.altKey || event.metaKey || event.target.closest("dialog")) return;
    if (event.target.closest("textarea")) return event.key === "Escape" ? event.target.blur() : undefined;
    const {key} = event, isLetter = key.length === 1;
    if (!CLICKER.test(key) && OWN.some(([of, keys]) => event.target.closest(of) && keys.test(key))) return;
    if (isLetter && key !== "?" && !isOn()) return;
    const all = {...always, ...mode() === "script" ? ofPlay : mode() === "calls" ? ofCalls : {}}, small = key.toLowerCase();
    const does = event.shiftKey && isLetter && all[`Shift+${small}`] || (all[key] ?? (isLetter ? all[small] : undefined));
    if (!does) return;
    event.preventDefault();
    does();
  });
}
