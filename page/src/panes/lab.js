// For a register: a button for each class that it misses. For a construction, also the bound of the search, the text that waits to be run,
// and the recording of the history that is shown.

import { $, node } from "../core/dom.js";
import { MOST_BOUND, boundOf } from "../model/lab_reading.js";

// The pane. `acts` has `choose`, `setBound`, `run`, `reveal` and `open`.
export function labPane(acts) {
  const fields = [$("writes"), $("reads")];
  let recording = "", given = "";

  const choose = () => {
    const [writes, reads] = fields.map(it => Math.max(0, Math.min(MOST_BOUND, Math.trunc(Number(it.value)) || 0)));
    acts.setBound({writes, reads});
  };
  for (const it of fields) it.onchange = choose;
  $("run").onclick = acts.run;
  $("revealed").onclick = acts.reveal;
  $("asregister").onclick = () => acts.open("register", {text: recording});

  const showMisses = misses => {
    const of = JSON.stringify(misses);
    if (of === given) return;
    given = of;
    $("misses").replaceChildren(...misses.map(({name, words, isOn}) => {
      const button = Object.assign(node("button", words), {type: "button", onclick: () => acts.choose(name)});
      button.setAttribute("aria-pressed", isOn);
      return button;
    }));
  };

  return {
    render(state, {whole, it, misses, isRefused, step}) {
      const isLab = state.mode === "lab";
      document.body.classList.toggle("stale", isLab && Boolean(whole.exploring));
      showMisses(isRefused ? [] : misses);
      $("bound").textContent = isLab && !isRefused ? it.bound : "";
      $("lab").hidden = !isLab;
      recording = isLab && !isRefused ? it.recording : "";
      $("recorded").hidden = recording === "" || Boolean(whole.exploring);
      $("recording").textContent = recording;
      if (!isLab) return;
      $("run").hidden = !whole.waits;
      $("predict").hidden = !state.isFolded || step !== null;
      const {writes, reads} = boundOf(state);
      for (const [field, value] of [[$("writes"), writes], [$("reads"), reads]])
        if (document.activeElement !== field) field.value = value;
      for (const field of fields) field.parentElement.hidden = state.exercise !== null;
    },
  };
}
