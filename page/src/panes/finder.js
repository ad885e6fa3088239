// Ways from line to line of recorded calls: to the fault, to the lines that contradict it, from call to call, to a line, and to those
// that name an item.

import { $ } from "../core/dom.js";
import { endOfCall, lineNaming } from "../text/recorded_lines.js";



// The lines that contradict the one at fault: first the one that the module gives, then others that its words name.
const linesAgainst =
  ({against, cause}) => [...new Set([against, ...[...cause.matchAll(/line (\d+)/g)].map(([, line]) => Number(line))])].filter(Boolean);

// A field in which the keys are its own, and Enter does something.
function onEnter(field, does) {
  field.onkeydown = event => {
    event.stopPropagation();
    if (event.key === "Escape") field.blur();
    if (event.key !== "Enter") return;
    event.preventDefault();
    does(event);
  };
}

// The buttons, fields and keys for these ways, which step to a line. The result has the `keys`, and `show`, which is called with a
// recording {text, lines, line, against, cause} with the line at fault, or with null, and with the line of the cursor.
export function finderOf(stepToLine) {
  let whole = null, cursor = 0;

  const goTo = line => line && stepToLine(line);
  const step = by => goTo(whole && endOfCall(whole.lines, cursor, by));
  const toFault = () => goTo(whole?.line);
  const toAgainst = () => {
    const lines = whole ? linesAgainst(whole) : [];
    goTo(lines[(lines.indexOf(cursor) + 1) % lines.length]);
  };
  const seek = by => {
    const item = $("item").value.trim(), line = whole && /^\d+$/.test(item) ? lineNaming(whole.text, whole.lines, item, cursor, by) : 0;
    $("sought").textContent = line || item === "" ? "" : by > 0 ? "no later line names it" : "no earlier line names it";
    goTo(line);
  };
  const focus = id => {
    $(id).focus();
    $(id).select();
  };

  for (const [id, does] of [["tofault", toFault], ["toagainst", toAgainst], ["callback", () => step(-1)], ["callon", () => step(1)],
         ["itemback", () => seek(-1)], ["itemon", () => seek(1)]])
    $(id).onclick = does;
  onEnter($("toline"), () => {
    const line = Number($("toline").value.trim());
    $("toline").blur();
    if (whole && Number.isInteger(line) && line > 0) stepToLine(Math.min(line, whole.lines.count));
  });
  onEnter($("item"), event => seek(event.shiftKey ? -1 : 1));

  return {
    show(of, line) {
      [whole, cursor] = [of, line];
      if (!whole) return;
      $("tofault").hidden = !whole.line;
      $("toagainst").hidden = !linesAgainst(whole).length;
      $("toline").placeholder = String(line);
    },
    keys: {x: toFault, a: toAgainst, n: () => step(1), b: () => step(-1), g: () => focus("toline"), "/": () => focus("item")},
  };
}
