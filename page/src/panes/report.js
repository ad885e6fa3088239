// Below the text: a report and, for a script, its replies, each a button that steps to the letter that brought it.

import { $, node } from "../core/dom.js";
import { LISTED_LETTERS, MOST_MOMENTS } from "../model/letters.js";

const NO_MOMENTS = [];
const LABELS = {inside: "most inside"}; // of a row whose name alone might be taken for what is inside now

// The pane. `acts` has `stepTo`, and `asTrace`, which opens the play that is shown as a trace. The result has `fill` too, for a report that
// comes later.
export function reportPane(acts) {
  let inList = NO_MOMENTS; // what the list was made of
  $("astrace").onclick = acts.asTrace;

  const list = (moments, letters) => {
    if (inList === moments) return;
    inList = moments;
    $("moments").replaceChildren(...moments.slice(0, MOST_MOMENTS).map(moment => {
      const item = node("li", ""), button = Object.assign(node("button", ""), {type: "button", onclick: () => acts.stepTo(moment.letter)});
      button.append(node("span", `letter ${moment.letter}`), node("span", moment.words));
      item.append(button);
      return item;
    }));
    if (moments.length > MOST_MOMENTS) $("moments").append(node("li", `and more: the first ${MOST_MOMENTS} are listed`));
    if (letters > LISTED_LETTERS) $("moments").append(node("li", `not listed for more than ${LISTED_LETTERS} letters`));
  };

  const fill = rows => {
    $("report").classList.remove("pending");
    $("summary").replaceChildren(...rows.map(([name, value, title]) => {
      const row = Object.assign(node("div", ""), {title});
      row.append(node("dt", LABELS[name] ?? name), node("dd", value));
      row.dataset.name = name;
      return row;
    }));
  };

  // Marks the replies that have come by the first `shown` letters.
  const mark = (moments, shown) => {
    if (!moments.length) return; // (where the list stands is asked for only then, as that has the whole page laid out)
    const buttons = [...$("moments").querySelectorAll("button")],
      last = moments.slice(0, MOST_MOMENTS).findLastIndex(it => it.letter <= shown);
    buttons.forEach((it, i) => it.classList.toggle("later", i > last));
    $("moments").querySelector("[aria-current]")?.removeAttribute("aria-current");
    buttons[last]?.setAttribute("aria-current", "step");
    $("moments").scrollTop = last < 0 ? 0 : buttons[last].offsetTop - $("moments").clientHeight / 2;
  };

  return {
    fill,
    render({mode}, {view, whole, it, shown, isRefused, drawing}) {
      const rows = isRefused ? [] : view.rows(it), moments = !isRefused && whole.moments || NO_MOMENTS;
      if (rows) fill(rows);
      else $("report").classList.add("pending"); // that of the line before, until it is there
      if (rows) $("report").hidden = rows.length === 0 && mode !== "script";
      list(moments, whole.letters);
      mark(moments, shown);
      $("reported").textContent = isRefused ? "" : view.of?.(it) ?? "";
      $("astrace").disabled = drawing === null;
    },
  };
}
