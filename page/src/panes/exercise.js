// An exercise of a teacher's: the task, which requirements are met, and, once all are, the code to hand in.

import { $, node } from "../core/dom.js";
import { saveAs } from "../core/saving.js";
import { handIn } from "../lab/exercises.js";
import { Wrong } from "../lab/procedures.js";

// The pane. `acts` has `reset`.
export function exercisePane(acts) {
  let state = null, met = null;

  const hide = () => $("handed").hidden = true;
  const codeOf = () => {
    try {
      return handIn(state.exercise.asked, state.text, $("student").value.trim());
    } catch (error) {
      if (!(error instanceof Wrong)) throw error;
      return error.message;
    }
  };
  $("afresh").onclick = acts.reset;
  $("student").oninput = () => {
    $("handin").disabled = $("student").value.trim() === "";
    hide();
  };
  $("handin").onclick = () => {
    $("code").value = codeOf();
    $("copied").textContent = "";
    $("handed").hidden = false;
    $("code").select();
  };
  $("copycode").onclick = async () => {
    $("code").select();
    const isCopied = await navigator.clipboard?.writeText($("code").value).then(() => true, () => false) ?? document.execCommand("copy");
    $("copied").textContent = isCopied ? "copied" : "not copied: it is selected, copy it by Ctrl+C";
  };
  $("savecode").onclick = () => saveAs(`${$("student").value.trim().replace(/[^\w-]+/g, "_")}.txt`, `${$("code").value}\n`);

  return {
    render(newState, {whole, isRefused}) {
      const before = state?.text;
      state = {...newState};
      const {exercise} = state, isShown = state.mode === "lab" && exercise !== null;
      $("exercise").hidden = !isShown;
      if (!isShown) return;
      if (before !== state.text) hide();
      met = isRefused ? null : whole.met ?? null;
      $("exercisename").textContent = exercise.title;
      $("task").textContent = exercise.task;
      $("afresh").disabled = state.text === exercise.text;
      $("needs").replaceChildren(...(met?.lines ?? []).map(({is, words}) => node("li", words, is ? "met" : "")));
      $("handing").hidden = !met?.isMet || Boolean(whole.exploring);
      if ($("handing").hidden) hide();
    },
  };
}
