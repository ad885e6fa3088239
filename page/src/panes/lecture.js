// The course as it is given: a step whose verdict is hidden until it is asked for, what to say, a clock, the picture alone in large
// letters, and the teacher's notes in a window of their own.

import { $, node } from "../core/dom.js";

const CLOCK = "lecture began"; // what the clock is kept by over a reload, for as long as the window is open

// Seconds as a clock shows them.
export function clockWords(seconds) {
  const parts = [Math.floor(seconds / 3600), Math.floor(seconds / 60) % 60, Math.floor(seconds) % 60];
  const [hours, minutes, rest] = parts.map(it => String(it).padStart(2, "0"));
  return seconds < 3600 ? `${Number(minutes)}:${rest}` : `${Number(hours)}:${minutes}:${rest}`;
}

// The clock of a lecture, which `say` shows each second. It runs from the first step that is shown.
function clockOf(say) {
  let began = Number(sessionStorage.getItem(CLOCK)) || null, isRunning = false;
  const tick = () => say(clockWords(Math.max(0, Date.now() - began) / 1000));
  const start = () => {
    began = Date.now();
    sessionStorage.setItem(CLOCK, began);
    tick();
  };
  return {
    start,
    run() {
      if (began === null) start();
      if (!isRunning) setInterval(tick, 1000);
      isRunning = true;
      tick();
    },
  };
}

const NOTES_STYLE = `body{font:20px/1.45 system-ui,sans-serif;margin:1.2rem;max-width:40rem}h1{font-size:1.1em}p{margin:.6em 0}
.time{float:right;font-variant-numeric:tabular-nums}.dim{color:#69707a}`;

// The teacher's notes, in a window of their own: what to say at this step, the question with its answer, and what comes next.
function notesWindow() {
  let other = null, time = null;
  const fill = ({step, lesson, next}) => {
    const {document: its} = other, p = (words, className = "") => its.importNode(node("p", words, className), true);
    time = its.importNode(node("span", time?.textContent ?? "", "time"), true);
    const heading = its.importNode(node("h1", `${step.number + 1} / ${step.of} · ${step.title} · ${step.minutes} min`), true);
    const asked = lesson.question ? [p(`? ${lesson.question}`), p(`! ${lesson.answer}`, "dim")] : [];
    its.title = "Notes";
    its.body.replaceChildren(time, heading, p(step.say.replaceAll("*", "")), ...asked,
      p(next ? `Next: ${next.title} (${next.minutes})` : "This is the last step.", "dim"));
  };
  return {
    // Opens it; the result is whether the browser lets it.
    open(shown) {
      other = window.open("", "ring notes", "width=560,height=640");
      if (!other) return false;
      const style = new other.CSSStyleSheet();
      style.replaceSync(NOTES_STYLE);
      other.document.adoptedStyleSheets = [style];
      fill(shown);
      return true;
    },
    show: shown => other && !other.closed && fill(shown),
    say: words => time && (time.textContent = words),
  };
}

// What the board shows in place of the picture: the table of the law, or commands with what they print.
function boardOf({title, rows = [], commands = []}) {
  const table = node("table", "");
  for (const cells of rows) {
    const row = node("tr", "");
    row.append(...cells.map((words, i) => i ? node("td", words) : node("th", words)));
    table.append(row);
  }
  return [node("h2", title), ...rows.length ? [table] : [], ...commands.map(it => node("pre", it))];
}

// The pane. `acts` has `reveal`, `setLarge`, `setNotes` and `redraw`. The result has the `keys` of a lecture.
export function lecturePane(acts, {lessons, course}, titled) {
  const notes = notesWindow();
  let state = null, shown = null, boardFor = null;
  const clock = clockOf(words => {
    $("clock").textContent = words;
    notes.say(words);
  });

  // The picture alone, in large letters, on the whole screen if the browser lets it; and back. A browser leaves the whole screen by Esc.
  const present = () => {
    const isOn = !state.isLarge;
    if (isOn) document.documentElement.requestFullscreen?.().catch(() => {});
    else if (document.fullscreenElement) document.exitFullscreen();
    acts.setLarge(isOn);
  };
  const reveal = () => state.isFolded && acts.reveal();
  $("reveal").onclick = reveal;
  $("present").onclick = present;
  $("notes").onclick = () => acts.setNotes(!state.hasNotes);
  $("ownwindow").onclick = () => shown && ($("ownwindow").disabled = !notes.open(shown));
  $("clock").onclick = clock.start;
  addEventListener("fullscreenchange", () => !document.fullscreenElement && state.isLarge && present());

  const showBoard = board => {
    $("board").hidden = !board;
    if (!board || boardFor === board) return;
    boardFor = board;
    $("board").replaceChildren(...boardOf(board));
  };

  return {
    keys: {f: present, v: reveal, s: () => state.isLarge && acts.setNotes(!state.hasNotes)},
    render(newState, {step, at}) {
      state = newState;
      for (const [name, isOn] of [["folded", state.isFolded], ["present", state.isLarge], ["noted", state.hasNotes],
             ["course", step !== null], ["board", Boolean(step?.board)]])
        document.body.classList.toggle(name, isOn);
      $("reveal").hidden = !state.isFolded;
      $("present").textContent = state.isLarge ? "Small" : "Large";
      $("notes").setAttribute("aria-pressed", state.hasNotes);
      $("lecture").hidden = step === null;
      showBoard(step?.board);
      if (step === null) return;
      shown = {step, lesson: lessons[at] ?? {}, next: course[step.number + 1] && titled(lessons, course[step.number + 1])};
      clock.run();
      notes.show(shown);
      $("at").textContent = `${step.number + 1} / ${step.of}`;
      $("about").textContent = step.title;
      $("minutes").textContent = `${step.minutes} min`;
    },
  };
}
