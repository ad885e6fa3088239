// A play by hand: a button for what each side does next, the rules, the goal, and whether it is reached.

import { $, node } from "../core/dom.js";
import { GOALS, HARMLESS, RULES, eventWords, isAsked, isReached, missingOf } from "../model/game.js";

const SIDES = ["P", "C"];

// The pane. `acts` has what its buttons do: move, finish, undo, startOver, setRule, setGoal, showHint, turn.
export function gamePane(acts) {
  $("rule").append(new Option("all kept", ""));
  for (const [name, words] of Object.entries(RULES)) $("rule").append(new Option(`without: ${words}`, name));
  $("goal").append(new Option("none", ""), ...GOALS.map(({name}) => new Option(name, name)));
  for (const side of SIDES) {
    $(`move${side}`).onclick = () => acts.move(side);
    $(`finish${side}`).onclick = () => acts.finish(side);
  }
  for (const button of document.querySelectorAll("[data-answer]"))
    button.onclick = () => acts.move(button.dataset.side, button.dataset.answer);
  $("undo").onclick = acts.undo;
  $("anew").onclick = acts.startOver;
  $("rule").onchange = () => acts.setRule($("rule").value);
  $("goal").onchange = () => acts.setGoal($("goal").value);
  $("hint").onclick = acts.showHint;
  $("another").onclick = acts.another;
  // (With the picture alone there is no room for them, but over it.)
  $("setting").onclick = () => $("setting").setAttribute("aria-expanded", $("setup").classList.toggle("over"));

  // What a side does next. A read that a write overlaps has a button for each of its answers.
  const showSide = (side, next, isInCall) => {
    const words = next ? `${side} ${eventWords(next)}` : `${side} is done`;
    $(`move${side}`).hidden = isAsked(next);
    $(`asked${side}`).hidden = !isAsked(next);
    $(`move${side}`).disabled = !next;
    $(`move${side}`).textContent = $(`words${side}`).textContent = words;
    $(`finish${side}`).disabled = !next || isAsked(next);
    $(`finish${side}`).textContent = isInCall ? "end its call" : "whole call";
  };

  return {
    render(state, now) {
      const {nexts, whole, it, calls, hint} = now;
      $("game").hidden = !nexts;
      if (!nexts) return;
      const {wrong} = whole.script, {goal} = state, reached = isReached(goal, it.found);
      for (const side of SIDES) showSide(side, nexts[side], calls.some(call => call.side === side && !call.reply));
      $("rule").value = wrong;
      $("goal").value = goal;
      const {takes} = whole.script, counted = `${takes} take${takes === 1 ? "" : "s"}: each item that is asked for is one, and each Empty`;
      $("takes").textContent = wrong ? counted : "";
      $("undo").disabled = whole.script.schedule === "";
      $("won").textContent = !goal ? "" : reached ? "reached" : "not reached";
      $("won").className = reached ? "good" : "dim";
      $("missing").textContent = goal && !reached ? missingOf(goal, it.found, calls, wrong) : "";
      $("winning").hidden = !reached;
      if (reached) $("winning").firstElementChild.replaceChildren(node("strong", "You have broken the ring. "),
        `${it.found.cause}, in ${now.shown} letters.`);
      $("hint").hidden = !hint;
      $("hinted").textContent = state.isHinted && hint ? hint : "";
    },
  };
}
