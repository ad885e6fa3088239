// What is found about the text: the verdicts, why, what the step is; and the title of the window.

import { $ } from "../core/dom.js";

const set = (id, words, mood) => {
  $(id).textContent = words ?? "";
  if (mood !== undefined) $(id).className = mood;
};

function titleOf({isFolded, mode}, {it, isRefused, step}) {
  if (isRefused) return it.pending ? "auditing" : "refused";
  if (isFolded) return step ? `step ${step.number + 1} of the course` : "what do you expect?";
  return [it.words, mode !== "script" ? it.ring?.words : it.found?.cause && it.found.words].filter(Boolean).join(", ");
}

// The pane. `acts` has `stop`, which ends what the worker reads; `say` shows new words on that.
export function verdictPane(acts) {
  $("stop").onclick = acts.stop;
  return {render: renderVerdict, say: words => set("bits", words)};
}

function renderVerdict(state, now) {
  const {it, isRefused, place} = now, mood = it.ring?.mood ?? "";
  set("bits", it.pending ?? (isRefused ? `${state.mode === "lab" ? "" : "refused: "}${it.refused}` : it.words),
    it.pending ? "dim" : isRefused ? "refused" : it.mood);
  $("stop").hidden = !it.pending && !it.exploring;
  set("ring", it.ring?.words, mood);
  set("found", it.found?.words, it.found?.mood ?? "");
  set("why", isRefused ? place?.cause : it.why);
  set("due", it.due, mood);
  set("uncalled", it.uncalled);
  set("step", isRefused ? "" : it.step);
  document.title = titleOf(state, now);
}
