// How much is shown, and steps through it.

import { $ } from "../core/dom.js";

// The pane. `acts` has `stepTo` and `step`.
export function stepsPane(acts) {
  $("shown").oninput = () => acts.stepTo(Number($("shown").value));
  $("back").onclick = () => acts.step(-1);
  $("on").onclick = () => acts.step(1);
  return {
    render(_, {view, whole, most, shown, isRefused}) {
      $("shown").max = most;
      $("shown").value = shown;
      $("place").textContent = isRefused ? "" : view.place(whole, shown);
      $("shown").setAttribute("aria-valuetext", $("place").textContent);
    },
  };
}
