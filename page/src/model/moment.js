// What is shown at a moment, from the state of the page and the module's word on the whole of its text.

import { isReached } from "./game.js";
import { callsUntil } from "../text/calls.js";
import { orStopped } from "../core/module.js";
import { placeOf } from "../text/refused_places.js";

// The place of the lesson beside the text in the list of all, or -1.
export const lessonAt = ({lessons}, {mode, lesson}) => lessons.findIndex(it => it.mode === mode && it.name === lesson);

// A step of the course, with the title of its lesson.
export const titled = (lessons, step) =>
  ({...step, title: step.title ?? lessons.find(it => it.mode === step.mode && it.name === step.name).title});

// The side whose call a key ends: the one that moved last if its call is under way, or else the other one if that has one.
function sideOfKey(events, calls) {
  const last = events.at(-1)?.side ?? "P", isOpen = side => calls.some(it => it.side === side && !it.reply),
    other = last === "P" ? "C" : "P";
  return !isOpen(last) && isOpen(other) ? other : last;
}

// What is shown: `it` has the words, how much is `shown` of the `most` there is, and the place at which the text `opens`; `drawing` is what
// the picture is made of, or null if the text is refused, at `place`, or not read yet; `nexts` is what each side of a play does next, and
// `calls` its calls so far.
export function momentOf(state, read, views, examples) {
  const view = views[state.mode], isRead = !read.refused && !read.pending, whole = isRead && view.chosen ? view.chosen(read, state) : read;
  const most = isRead ? view.most(whole) : 0, opens = isRead ? view.first(whole) : 0;
  const shown = state.shown === Infinity ? opens : Math.min(state.shown, most);
  const it = isRead ? orStopped(() => view.at(whole, shown)) : whole, isRefused = Boolean(it.refused || it.pending);
  const isPlayed = state.mode === "script" && !isRefused, at = lessonAt(examples, state), {lessons, course} = examples;
  const nexts = isPlayed ? orStopped(() => view.nexts(whole, shown)) : null;
  const step = state.course === null ? null : {...titled(lessons, course[state.course]), number: state.course, of: course.length};
  const calls = isPlayed ? callsUntil(whole.calls, it.events.length) : [];
  return {
    whole,
    view,
    most,
    opens,
    shown,
    it,
    isRefused,
    step,
    at,
    lessons,
    drawing: isRefused ? null : view.drawing(whole, it, state.waves, shown),
    place: it.refused ? placeOf(state.mode, state.text, it) : null,
    nexts: nexts?.refused ? null : nexts,
    calls,
    sideOfKey: isPlayed ? sideOfKey(it.events, calls) : null,
    isAside: step !== null
      && (state.mode !== step.mode || state.lesson !== step.name), // a text in a step of the course that is not the step's own
    misses: isRead && view.misses ? view.misses(whole) : [],
    hint: lessons[at]?.hint ?? "",
    isWon: isPlayed && isReached(state.goal, it.found),
  };
}
