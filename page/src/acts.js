// What the reader does: the acts that the panes and the keys call.

import { $ } from "./core/dom.js";
import { traceOf } from "./core/words.js";
import { answering } from "./model/game.js";
import { finishedBy, movedBy, undone } from "./model/moves.js";
import { withFields } from "./text/script.js";

// ---- steps ---------------------------------------------------------------------------------------------------------------

function stepsOf(page) {
  const {state, examples} = page;

  // Shows the first `shown` events; a step leaves the first screen.
  function stepTo(shown) {
    page.change({shown: Math.max(0, Math.min(shown, page.now.most)), isWelcome: false}, true);
    if (page.hasLines()) page.panes.editor.scrollToLine(state.shown + 1);
  }

  // The lesson, or the step of the course, before the one that is shown or after it.
  function turn(by) {
    if (state.course !== null) return page.openStep(state.course + by);
    const it = examples.lessons[page.now.at + by];
    if (it) page.load(it.mode, it.name);
  }

  return {
    stepTo, turn,
    step: by => stepTo(page.now.shown + by),
    stepToLine: line => stepTo(line - 1),
    // A clicker goes event by event, and from the last one to the next step of the course.
    click(by) {
      if (state.course === null) return turn(by);
      const {now} = page, to = now.step.board ? by * Infinity : now.shown + by;
      if (now.isRefused || to > now.most) return page.openStep(state.course + 1);
      if (to < 1) return page.openStep(state.course - 1, Infinity);
      stepTo(to);
    },
    // Steps to the beginning of a bar, by its line, and selects that line.
    stepToBar(line) {
      if (!line) return;
      $("text").blur(); // so that the keys go on stepping
      const place = Number(line) - 2;
      stepTo(state.mode === "script" ? page.whole.numbers[place] : place + 1);
      if (page.hasLines()) page.panes.editor.selectLine(Number(line), false);
    },
    selectBar: line => line && page.hasLines() && page.panes.editor.selectLine(Number(line), true),
  };
}

// ---- a play by hand --------------------------------------------------------------------------------------------------------

function playsOf(page) {
  const {state, examples, views} = page, isCutShort = () => page.now.shown < page.whole.letters;

  // Edits fields of the script that is played; Back restores an example, or letters that are lost.
  function play(fields, isLost = false) {
    if (!fields) return;
    const {lesson, course, isHinted} = state, isNew = state.example !== "" || isLost;
    page.open("script", {text: withFields(state.text, fields), lesson, course, isHinted}, isNew);
  }

  // Makes the next event of a side, with this answer if a write overlaps the read that it ends. The letters after it go.
  function move(side, answer) {
    if (!page.now.nexts) return;
    const fields = movedBy(page.now, side, answer);
    state.asked = fields ? "" : side;
    play(fields, isCutShort());
  }

  return {
    move,
    // Makes the events of a side up to the end of its call, or up to a read that has to be answered.
    finish: side => page.now.nexts && play(finishedBy(page.now, side, views.script), isCutShort()),
    // Answers the overlapped read that was asked for.
    answer(value) {
      const side = page.now.nexts && answering(page.now.nexts, state.asked);
      if (side) move(side, value);
    },
    undo: () => page.now.nexts && page.now.shown > 0 && play(undone(page.now, views.script), isCutShort()),
    startOver: () => play({schedule: "", oracle: ""}, true),
    setRule: wrong => play({wrong}),
    setGoal: goal => page.change({goal}),
    showHint: () => page.change({isHinted: !state.isHinted}),
    // The challenge after the one that is played.
    another() {
      const all = examples.lessons.filter(it => it.goal), at = all.findIndex(it => it.mode === state.mode && it.name === state.lesson);
      const {mode, name} = all[(at + 1) % all.length];
      page.load(mode, name);
    },
    asTrace: () => page.open("trace", {text: traceOf(page.now.drawing.shape, page.now.drawing.events)}),
  };
}

// ---- all of them -----------------------------------------------------------------------------------------------------------

// The acts on a page.
export function actsOf(page) {
  const {state, examples} = page;
  return {
    ...stepsOf(page), ...playsOf(page),
    open: (mode, given) => mode === "exercise" ? page.openExercise(given.text, {isTrusted: given.isTrusted}) : page.open(mode, given),
    openLesson: page.load, openStep: page.openStep, openFile: page.openFile, leave: page.leave, stop: page.stop,
    edit(text) {
      if (state.example) page.leave();
      const isTrusted = state.isTrusted || state.example !== ""; // a text of a link stays one as it is edited
      page.change({text, example: "", file: "", note: "", refusal: "", shown: Infinity, missed: "", isTrusted,
        isFolded: state.isFolded && state.course !== null});
    },
    setMode(mode) {
      const left = state.left[mode];
      if (left) page.open(mode, left);
      else page.load(mode, examples[mode][0]);
    },
    // The lesson's own text again, or that of the step of the course.
    reset() {
      if (state.exercise) page.change({text: state.exercise.text, shown: Infinity});
      else if (state.course === null) page.load(state.mode, state.lesson, {isFolded: false});
      else page.openStep(state.course, page.now.isAside ? Infinity : 1);
    },
    reveal: () => page.change({isFolded: false}),
    setBound: bound => page.change({bound}),
    run: page.run,
    choose: missed => page.change({missed, shown: Infinity}),
    setLarge: isLarge => page.change({isLarge}),
    setNotes: hasNotes => page.change({hasNotes}),
    setWaves: waves => page.change({waves}),
    setTheme(theme) {
      page.setTheme(theme);
      page.render();
    },
    redraw: () => page.render(),
    find: () => page.panes.editor.select(page.now.place, page.hasLines()),
    fillReport: rows => page.panes.report.fill(rows),
    aspect: count => page.panes.picture.aspect(count),
  };
}

// The keys of a page: {always, ofPlay, ofCalls}.
export function keysOf(page, acts) {
  const always = {
    ArrowLeft: () => acts.step(-1),
    ArrowRight: () => acts.step(1),
    Home: () => acts.stepTo(["calls", "register"].includes(page.state.mode) ? 1 : 0),
    End: () => acts.stepTo(Infinity),
    PageUp: () => acts.click(-1),
    PageDown: () => acts.click(1),
    "?": () => $("help").showModal(),
  };
  const ofPlay = {
    p: () => acts.move("P"),
    c: () => acts.move("C"),
    "Shift+p": () => acts.finish("P"),
    "Shift+c": () => acts.finish("C"),
    e: () => acts.finish(page.now.sideOfKey),
    u: acts.undo,
    0: () => acts.answer("0"),
    1: () => acts.answer("1"),
    h: () => page.now.hint && acts.showHint(),
  };
  return {always: {...page.panes.lecture.keys, ...always}, ofPlay, ofCalls: page.panes.author.keys};
}
