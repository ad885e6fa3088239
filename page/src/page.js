// The page: its state, what follows from it, and the texts that are put into it. The panes show it: each renders the state
// and the moment.

import { addressWriter, askedBy, linkTo } from "./core/address.js";
import { exampleText } from "./core/files.js";
import { newState } from "./core/state.js";
import { styleWithin } from "./draw/style.js";
import { GOALS } from "./model/game.js";
import { labReaderOf } from "./model/lab_reading.js";
import { momentOf } from "./model/moment.js";
import { readerOf } from "./model/reading.js";
import { readExercise } from "./text/exercise.js";
import { readFile } from "./text/files.js";
import { laidOut } from "./text/script.js";

const NO_TEXT = {text: "", example: "", file: "", course: null, note: "", refusal: "", offer: null, shown: Infinity, missed: "",
  bound: null, isTrusted: false, exercise: null};
const READ = ["text", "mode", "refusal", "example", "bound", "isTrusted", "exercise"]; // fields of the state on which depends what is found

// The page over the examples, the kinds of text (model/views.js), the module, the worker and the lab's. `setPanes` is called before
// anything is shown.
export function pageOf({examples, views, asker, module, labAsker}) {
  const trusted = new Set(); // texts of constructions that the reader ran, which Back and Forward run again
  const state = newState(), address = addressWriter(), paper = new CSSStyleSheet();
  let panes = {}, whole = {}, now = null; // what shows it; what the module says of the whole text; what is shown
  let loading = 0; // so that of several examples that are asked for at once the last is shown
  const hasLines = () => state.mode !== "script" && state.mode !== "lab"; // of which a place is one

  // Shows all anew. `isStep` if it is another part of the same text.
  function render(isStep = false) {
    now = momentOf(state, whole, views, examples);
    for (const pane of Object.values(panes)) pane.render(state, now, isStep);
    if (!now.it.pending && !state.isWelcome && !state.refusal) address.write(linkTo(state, now.shown, now.opens));
  }

  const reader = readerOf({asker, views, show(found) {
    whole = found;
    if (found.pending) return panes.verdict.say(found.pending);
    render();
    if (hasLines()) panes.editor.scrollToMarked(state.shown);
  }});
  const labReader = labReaderOf({module, asker: labAsker, meanwhile: words => panes.verdict.say(words), show(found) {
    whole = found;
    render();
  }});
  const readWhole = () => {
    if (state.refusal || state.mode !== "lab") labReader.stop();
    if (state.refusal) return {refused: state.refusal, line: 0};
    if (state.mode !== "lab") return reader.read(state.mode, state.text);
    reader.end();
    if (state.isTrusted) trusted.add(state.text);
    return labReader.read(state);
  };

  // Writes fields of the state, and shows what follows.
  function change(fields, isStep = false) {
    const before = READ.map(name => state[name]);
    Object.assign(state, fields);
    if (READ.some((name, i) => state[name] !== before[i])) whole = readWhole();
    render(isStep);
  }

  // A search that the reader stops, or asks for.
  function stopLab() {
    labReader.stop();
    whole = {text: state.text, waits: "stopped before it was explored", misses: []};
    render();
  }
  function run() {
    state.isTrusted = true;
    whole = readWhole();
    render();
  }

  function setTheme(theme) {
    state.theme = theme;
    document.documentElement.className = theme;
    paper.replaceSync(styleWithin(theme));
  }

  // ---- texts ---------------------------------------------------------------------------------------------------------------

  // Puts a text into the editor, that of an example or another one, with the part of the state that goes with it; Back restores what was
  // there, except for a text from a link. A step of the course begins folded.
  function open(mode, given, isNew = true) {
    const {goal, isWelcome, left, course} = state, lesson = given.example ?? "";
    const {text, example, file, shown, missed, bound, isTrusted, exercise} = state;
    ++loading;
    if (isNew) address.leave();
    if (state.mode && mode !== state.mode)
      left[state.mode] = {text, example, file, lesson: state.lesson, shown, missed, bound, isTrusted, exercise};
    const fields = {...NO_TEXT, goal, lesson, isHinted: false, isWelcome: isWelcome && !isNew, ...given, mode};
    const isStep = fields.course !== null && (fields.course !== course || state.isFolded);
    change({...fields, isFolded: fields.course === null ? given.isFolded ?? false : isStep});
    if (hasLines()) panes.editor.scrollToMarked(state.shown);
  }

  // Shows an example.
  async function load(mode, name, more = {}, isNew = true) {
    const mine = ++loading, text = await exampleText(mode, name);
    if (mine !== loading) return;
    const {goal, question} = examples.lessons.find(it => it.mode === mode && it.name === name) ?? {};
    const isFolded = mode === "lab" && Boolean(question); // first the reader says what is to be expected
    open(mode, {text: mode === "script" ? laidOut(text) : text, example: name, isFolded, ...goal ? {goal} : {}, ...more}, isNew);
  }

  // Shows a step of the course, from its first event on, or, if it is gone back to, at its end.
  function openStep(number, shown = 1, isNew = true) {
    const it = examples.course[number];
    if (it) load(it.mode, it.name, {shown, course: number}, isNew);
  }

  // Shows an exercise of this text, with the construction that it begins with or another one.
  function openExercise(given, {text, ...more} = {}, isNew = true) {
    const {exercise, refusal} = readExercise(given);
    if (refusal) open("lab", {...more, refusal}, isNew);
    else open("lab", {...more, text: text ?? exercise.text, exercise}, isNew);
  }

  async function openFile(file) {
    const {mode, text, note, offer = null} = await readFile(file);
    if (mode === "exercise") openExercise(text, {file: file.name, note, isTrusted: true});
    else if (mode) open(mode, {text, file: file.name, note, isTrusted: true});
    else open(state.mode, {file: file.name, refusal: note, offer});
  }

  // What the address may ask for.
  const has = {
    goal: name => GOALS.some(it => it.name === name),
    step: number => examples.course[number] !== undefined,
    example: ({mode, name}) => examples[mode].includes(name),
    isOfStep: (number, {mode, name}) => mode === examples.course[number]?.mode && name === examples.course[number].name,
  };

  // Shows what the address asks for.
  function follow() {
    address.drop();
    const {fields, step, isAtStart, named, mode, text, exercise, note} = askedBy(location.hash, has);
    const {shown, lesson = "", goal, course = null, waves, isWelcome, theme, missed, bound} = fields;
    setTheme(theme);
    Object.assign(state, {waves, goal, isWelcome});
    if (step !== undefined) return openStep(step, isAtStart ? 1 : shown, false);
    if (named) return load(named.mode, named.name, {shown, note, course, missed, bound, ...goal ? {goal} : {}}, false);
    if (exercise !== undefined) {
      const own = text ?? readExercise(exercise).exercise?.text;
      return openExercise(exercise, {text, shown, note, missed, isTrusted: trusted.has(own)}, false);
    }
    const isTrusted = trusted.has(text); // but else code of a link does not run before the reader asks for it
    if (text !== undefined) return open(mode, {text, lesson, shown, note, course, missed, bound, isTrusted}, false);
    return load("trace", examples.trace[0], {shown, note}, false);
  }

  document.adoptedStyleSheets = [paper];
  return {
    state, examples, views, change, render, open, load, openStep, openFile, openExercise, follow, setTheme, hasLines,
    get now() { return now; },
    get whole() { return whole; },
    get panes() { return panes; },
    setPanes: all => panes = all,
    leave: address.leave,
    run,
    stop: () => state.mode === "lab" ? stopLab() : reader.stop(),
  };
}
