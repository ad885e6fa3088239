// What the queue holds: for a play, its items, counts, cells and the close bit; for recorded calls, its items at the cursor.

import { $, node } from "../core/dom.js";
import { rowsInside } from "../model/items_in_play.js";

const scanWords = ({name, scans}) => `${scans.map(it => it ?? "no count").join(" or ")} for ${name}`;

// Fills the panel with these rows.
export function showContents(rows) {
  $("inside").replaceChildren(...rows.map(({name, title, parts}) => {
    const row = Object.assign(node("span", "", "row"), {title});
    row.append(node("b", name),
      ...parts.map(it => node("span", it.words, ["part", it.isOpen && "open", it.isNow && "now"].filter(Boolean).join(" "))));
    if (!parts.length) row.append(node("span", "–", "part none"));
    return row;
  }));
  const counts = rows.filter(it => it.scans);
  if (counts.length)
    $("inside").append(node("span", `A scan that lies in this moment gives ${counts.map(scanWords).join(", and ")}.`, "scans"));
}

// The contents in a play. (For recorded calls their tools fill the pane, once the cursor rests: author_tools.js.)
export const contentsPane = () => ({
  render({mode}, {nexts, it, whole, isRefused}) {
    if (mode !== "calls" || isRefused) showContents(nexts ? rowsInside({...it, roundAt: whole.roundAt}, whole.order) : []);
  },
});
