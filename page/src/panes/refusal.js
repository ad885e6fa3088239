// For a text that is refused: the place, what is offered instead, a sample of the format, and the last picture.

import { $, node } from "../core/dom.js";
import { offersFor } from "../text/kinds.js";
import { excerpt } from "../text/refused_places.js";

// What is offered, each with a button that does it.
const offerRow = ({words, label, mode, text}, isTrusted, open) => {
  const row = node("p", `${words} `);
  if (label) row.append(Object.assign(node("button", label), {type: "button", onclick: () => open(mode, {text, isTrusted})}));
  return row;
};

// The pane. `acts` has `open`, which shows a text, and `find`, which selects the place that is refused.
export function refusalPane(acts, module) {
  $("find").onclick = acts.find;
  let offered = null; // the text whose offers stand there

  const showOffers = ({mode, text, refusal, offer, isTrusted}, isRefused) => {
    const of = isRefused ? `${mode} ${refusal} ${text}` : null;
    if (offered === of) return;
    offered = of;
    const offers = !isRefused ? [] : refusal ? [offer].filter(Boolean) : offersFor(mode, text, module);
    $("offers").replaceChildren(...offers.map(it => offerRow(it, isTrusted, acts.open)));
  };

  return {
    render(state, {it: {refused}, place}) {
      const isRefused = Boolean(refused);
      $("refusal").hidden = !isRefused;
      showOffers(state, isRefused);
      if (isRefused) {
        if ($("picture").firstElementChild?.localName === "svg") $("last").lastElementChild.replaceChildren($("picture").firstElementChild);
        const it = place && excerpt(state.text, place);
        $("excerpt").replaceChildren(
          ...it ? [`line ${it.line}, column ${it.column}: `, it.before, node("mark", it.at || "␣"), it.after] : []);
        $("excerpt").hidden = $("find").hidden = !it;
        const sample = $(`${state.mode}format`).cloneNode(true);
        sample.removeAttribute("id");
        $("sample").replaceChildren(...state.refusal ? [] : [sample]);
      }
      $("last").hidden = !isRefused || !$("last").querySelector("svg");
    },
  };
}
