// The link to what is shown, and what a link asks for: #example=NAME&shown=N&theme=dark&bits=all, with script=NAME for a script,
// calls=NAME for recorded calls, register=NAME for a recorded register and lab=NAME for a construction. trace=TEXT, play=TEXT,
// recording=TEXT, history=TEXT and construction=TEXT have a text that is not an example's, kept=N one that is too long for a link.

import { keep, keptAt } from "./kept_texts.js";
import { MODES, WAVES } from "./state.js";
import { CLASSES } from "../lab/audit.js";

export const MOST_LINKED = 200000; // characters of a text that a link has

// What a link has for a text of each kind: for an example, and for any other text.
export const LINKS = {
  trace: {named: "example", given: "trace"},
  script: {named: "script", given: "play"},
  calls: {named: "calls", given: "recording"},
  register: {named: "register", given: "history"},
  lab: {named: "lab", given: "construction"},
};
const KNOWN = [...Object.values(LINKS).flatMap(it => [it.named, it.given]), "kept", "lesson", "course", "goal", "shown", "theme", "bits",
  "class", "writes", "reads", "exercise"];

const HAS_CLASS = ["register", "lab"]; // kinds of text of which a class that is missed can be chosen

// The link to this state, which shows `shown` events; without a number if the text `opens` there.
export function linkTo(state, shown, opens) {
  const parts = new URLSearchParams(), {mode, text, example} = state, {named, given} = LINKS[mode];
  if (mode === "lab" && state.exercise) parts.set("exercise", state.exercise.file);
  if (example) parts.set(named, example);
  else if (mode === "lab" && state.exercise?.text === text) parts.delete(given);
  else if (text.length <= MOST_LINKED) parts.set(given, text);
  else parts.set("kept", keep(mode, text));
  if (state.lesson && !example) parts.set("lesson", state.lesson);
  if (state.course !== null) parts.set("course", state.course + 1);
  if (mode === "script" && state.goal) parts.set("goal", state.goal);
  if (mode === "lab" && state.bound) for (const name of ["writes", "reads"]) parts.set(name, state.bound[name]);
  if (HAS_CLASS.includes(mode) && state.missed) parts.set("class", state.missed);
  if (shown !== opens) parts.set("shown", shown);
  if (state.theme) parts.set("theme", state.theme);
  if (state.waves !== "some") parts.set("bits", state.waves);
  return `#${parts}`;
}

// What a link asks for: fields of the state; with `named`, {mode, name}, an example; with `text` and `mode`, a text; with `step`, a step of
// the course; a text that is not the step's own stays in that step, as its `course`; with `exercise`, the file of a teacher's, and the
// `text` of a construction for it, if it is another one. `note` says what part of it does not exist. `has` says
// whether there is an example {mode, name}, a step, a goal, and whether an example is that of a step.
export function askedBy(hash, has) {
  const parts = new URLSearchParams(hash.slice(1)), number = /^\d+$/.test(parts.get("shown") ?? "") ? Number(parts.get("shown")) : null;
  const among = (name, all, other) => all.includes(parts.get(name)) ? parts.get(name) : other;
  const fields = {theme: among("theme", ["light", "dark"], ""), waves: among("bits", WAVES, "some"), isWelcome: hash.length <= 1,
    goal: has.goal(parts.get("goal")) ? parts.get("goal") : "", shown: number ?? Infinity};
  const count = name => /^\d{1,2}$/.test(parts.get(name) ?? "") ? Number(parts.get(name)) : null;
  const writes = count("writes"), reads = count("reads");
  fields.missed = CLASSES.includes(parts.get("class")) ? parts.get("class") : "";
  fields.bound = writes === null || reads === null ? null : {writes, reads};
  const unknown = [...parts.keys()].filter(name => !KNOWN.includes(name)),
    notes = unknown.map(name => `A link has no part ${name}: it was left out.`);
  const named = MODES.map(mode => ({mode, name: parts.get(LINKS[mode].named)})).find(({name}) => name !== null) ?? null;
  const given = MODES.find(mode => parts.has(LINKS[mode].given)), step = Number(parts.get("course")) - 1;
  const lesson = parts.get("lesson") ?? "", kept = keptAt(parts.get("kept"));
  if (parts.has("course") && !has.step(step)) notes.push(`The course has no step ${parts.get("course")}.`);
  if (parts.get("goal") && !fields.goal) notes.push(`There is no goal “${parts.get("goal")}”.`);
  const course = has.step(step) ? step : null, isAside = given || kept || named && !has.isOfStep(step, named);
  if (course !== null && !isAside) return {fields, step, isAtStart: number === null && !named, note: notes.join(" ")};
  fields.course = course;
  if (named && has.example(named)) return {fields, named, note: notes.join(" ")};
  if (named && !given) notes.push(`There is no example ${named.name} of this kind.`);
  if (kept) return {fields: {...fields, lesson}, mode: kept.mode, text: kept.text, note: notes.join(" ")};
  if (parts.has("kept")) notes.push("That text was too long for a link: open its file again.");
  if (parts.has("exercise"))
    return {fields, exercise: parts.get("exercise"), text: parts.get(LINKS.lab.given) ?? undefined, note: notes.join(" ")};
  if (given) return {fields: {...fields, lesson}, mode: given, text: parts.get(LINKS[given].given), note: notes.join(" ")};
  return {fields, note: notes.join(" ")};
}

// Writes links into the address: a little later, since browsers refuse a page that writes too many; and at once, as a new place of the
// browser's history, after `leave`.
export function addressWriter() {
  let timer = 0, due = null, isLeft = false;
  const write = () => {
    clearTimeout(timer);
    if (due !== null) history.replaceState(null, "", due);
    due = null;
  };
  return {
    write(link) {
      clearTimeout(timer);
      due = isLeft ? null : link;
      if (isLeft) history.pushState(null, "", link);
      else timer = setTimeout(write, 100);
      isLeft = false;
    },
    leave() {
      write();
      isLeft = true;
    },
    drop() {
      clearTimeout(timer);
      due = null;
    },
  };
}
