// Moves of a play by hand: the fields of the script after one more letter, after the letters that end a call, and after one letter fewer.

import { isAsked } from "./game.js";
import { firstLetters } from "../text/script.js";

const FARTHEST = 1000; // letters by which a call is ended at most

// The fields of a script with one more letter after the first `shown`, and with an answer if one is asked for; null
// if the side does nothing.
export function moved(script, shown, nexts, side, answer) {
  const next = nexts[side];
  if (!next || isAsked(next) !== (answer !== undefined)) return null;
  const schedule = firstLetters(script.schedule, shown, side);
  return isAsked(next) ? {schedule, oracle: script.oracle.slice(0, nexts.answers).padEnd(nexts.answers, "0") + answer} : {schedule};
}

// The fields after the next event of a side at this moment, with its answer if a write overlaps the read that it ends; null if there is
// none.
export const movedBy = ({whole, shown, nexts}, side, answer) => moved(whole.script, shown, nexts, side, answer);

// The fields after all events of a side up to the end of the call that is under way, or else of its next one; up to a read that has to be
// answered if there is one before. Null if the side does nothing.
export function finishedBy({whole, shown, nexts, it}, side, view) {
  const {script} = whole, next = nexts[side];
  if (!next || isAsked(next)) return null;
  const oracle = script.oracle.slice(0, nexts.answers), schedule = firstLetters(script.schedule, shown), begun = it.events.length;
  const all = view.readScript({...script, oracle, schedule: `${schedule}${side}${FARTHEST}`});
  if (all.refused) return null;
  const {events} = all, asks = events.findIndex((event, place) => place >= begun && isAsked(event));
  const ends = Math.min(...all.calls.filter(call => call.side === side && call.end >= begun).map(call => call.end + 1), events.length);
  const past = asks < 0 ? ends : Math.min(ends, asks);
  return {schedule: firstLetters(`${schedule}${side}${past - begun}`, Infinity), oracle};
}

// The fields without the last letter, and without its answer.
export function undone({whole, shown}, view) {
  const {script} = whole, {answers} = view.nexts(whole, shown - 1);
  return {schedule: firstLetters(script.schedule, shown - 1), oracle: script.oracle.slice(0, answers)};
}
