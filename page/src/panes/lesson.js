// The lesson beside the picture: its title, the story of its example, a question, and the answer folded.

import { LINKS } from "../core/address.js";
import { $, node } from "../core/dom.js";
import { titled } from "../model/moment.js";
import { laidOut } from "../text/script.js";

const KINDS_OF_FILES = {".trace": "trace", ".json": "script", ".calls": "calls", ".reg": "register", ".js": "lab"};

// Words of a story that it does not explain, each with what it means here; `docs/MODEL.md` has them exactly.
const MEANS = {
  "safe": "of a bit: a read that no write of it overlaps answers what the bit holds; one that a write overlaps may answer 0 or 1",
  "regular": "of a bit: a read that a write of it overlaps answers the old value or the new one",
  "ring": "cells that are used in turn, with a count of each side that goes round",
  "scan": "a side's reads of the other side's count, from the bit of number 0 up to the first one that answers 1",
  "word": "an item in a cell: its binary digits, a bit each",
  "count": "how many items a side has put or taken, modulo the modulus, as the number of the lowest bit that is 1",
  "letter": "of a schedule: P or C, the side whose event comes next",
  "oracle": "what reads answer that a write overlaps, in turn",
  "s0": "the first bit of the producer's count; r0 is that of the consumer's, x the close bit, c0.0 the first digit of cell 0",
  "linearizable": "there is an order of the operations, each at a moment within its call, that a queue allows"
};
const TERM = new RegExp(`\\b(${Object.keys(MEANS).join("|")})\\b`, "i");

function termOf(words, means) {
  const it = Object.assign(node("span", words, "term"), {tabIndex: 0});
  it.dataset.means = means;
  return it;
}

// Adds words to a paragraph, each of these terms that has not been explained yet with its meaning.
function addWords(it, words, told) {
  for (let rest = words; rest;) {
    const found = TERM.exec(rest), term = found?.[0].toLowerCase();
    if (!found) return it.append(rest);
    it.append(rest.slice(0, found.index));
    it.append(told.has(term) ? found[0] : termOf(found[0], MEANS[term]));
    told.add(term);
    rest = rest.slice(found.index + term.length);
  }
}

// A paragraph of a story: what is in backticks is code, or, if it is the name of a lesson, a link with its title.
function paragraph(text, lessons, told = new Set(Object.keys(MEANS))) {
  const it = node("p", "");
  text.split("`").forEach((words, i) => {
    if (i % 2 === 0) return addWords(it, words, told);
    const [, name, kind] = /^(\w+?)(\.trace|\.json|\.calls|\.reg|\.js)?$/.exec(words) ?? [];
    const named = lessons.filter(it => it.name === name),
      lesson = named.find(it => it.mode === (KINDS_OF_FILES[kind] ?? "script")) ?? named[0];
    if (!lesson) return it.append(node("code", words));
    it.append(Object.assign(node("a", `“${lesson.title}”`), {href: `#${LINKS[lesson.mode].named}=${lesson.name}`, title: lesson.name}));
  });
  return it;
}

// The link of a script, given by its name or by its text; within a step of the course it stays there.
function playLink(words, step) {
  const [kind, it] = words.split(/=(.*)/s);
  return `#${new URLSearchParams({[kind]: kind === "play" ? laidOut(it) : it, ...step ? {course: step.number + 1} : {}})}`;
}

// Fills the panel with a lesson, number `at` of all, that stands for a step of the course if that is given, or `isAside` of it.
function fillLesson(lessons, at, step, isAside) {
  const it = lessons[at];
  $("which").textContent = step ? `step ${step.number + 1} of ${step.of}` : `${at + 1} of ${lessons.length} · ${it.chapter}`;
  $("name").textContent = it.title;
  $("of").textContent = it.name;
  $("previous").disabled = step ? step.number === 0 : at === 0;
  $("next").disabled = step ? step.number === step.of - 1 : at === lessons.length - 1;
  const told = new Set();
  $("story").replaceChildren(...it.story.map(text => paragraph(text, lessons, told)));
  $("replay").hidden = !it.play;
  if (it.play) $("replay").href = playLink(it.play, step);
  $("means").textContent = "";
  $("say").hidden = !step || isAside;
  $("say").replaceChildren(...step ? paragraph(`To say: ${step.say.replaceAll("*", "")}`, lessons).childNodes : []);
  $("asked").hidden = !it.question;
  $("asked").open = false;
  $("question").replaceChildren(...paragraph(it.question, lessons).childNodes);
  $("answer").replaceChildren(...paragraph(it.answer, lessons).childNodes);
  $("lesson").scrollTop = 0;
}

// The list of the steps of the course and of the lessons, by chapters, for a <select>.
function lessonOptions(lessons, course) {
  const groups = new Map([["Course", Object.assign(document.createElement("optgroup"), {label: "Course, 65 minutes"})]]);
  const optionOf = ({title, name}, words, value) => Object.assign(new Option(words + title, value), {title: name});
  course.forEach((it, i) => groups.get("Course").append(optionOf(titled(lessons, it), `${i + 1}. `, `course ${i}`)));
  for (const it of lessons) {
    if (!groups.has(it.chapter)) groups.set(it.chapter, Object.assign(document.createElement("optgroup"), {label: it.chapter}));
    groups.get(it.chapter).append(optionOf(it, "", `${it.mode} ${it.name}`));
  }
  return [...groups.values()];
}

// What a word of a story means, if it is pointed at, reached or tapped.
function listenToTerms() {
  const means = event => {
    const term = event.target.closest(".term");
    if (!term) return;
    const {left, bottom} = term.getBoundingClientRect();
    $("means").textContent = `${term.textContent}: ${term.dataset.means}`;
    $("means").style.left = `${Math.max(0, Math.min(left, innerWidth - $("means").offsetWidth - 8))}px`;
    $("means").style.top = `${bottom + 4}px`;
  };
  for (const kind of ["mouseover", "focusin", "click"]) $("story").addEventListener(kind, means);
  for (const kind of ["mouseout", "focusout"]) $("story").addEventListener(kind, () => $("means").textContent = "");
}

// The pane. `acts` has `turn`, `reset`, `openLesson` and `openStep`.
export function lessonPane(acts, {lessons, course}) {
  $("example").append(Object.assign(new Option("your own", ""), {hidden: true}), ...lessonOptions(lessons, course));
  $("example").onchange = () => {
    const [mode, name] = $("example").value.split(" ");
    if (mode === "course") acts.openStep(Number(name));
    else acts.openLesson(mode, name);
  };
  $("asked").ontoggle = () => $("asked").open && $("lesson").scrollTo(0, $("lesson").scrollHeight); // to the answer
  $("previous").onclick = () => acts.turn(-1);
  $("next").onclick = () => acts.turn(1);
  $("reset").onclick = acts.reset;
  listenToTerms();
  return {
    render({mode, example, course: number}, {at, step, isAside}) {
      $("example").value = number !== null ? `course ${number}` : example ? `${mode} ${example}` : "";
      $("lesson").hidden = at < 0;
      $("reset").hidden = example !== "" && !isAside;
      $("reset").textContent = isAside ? `Back to step ${step.number + 1}` : "Reset";
      const of = at < 0 ? "" : `${at} ${step?.number} ${isAside}`;
      if (at < 0 || $("lesson").dataset.of === of) return;
      $("lesson").dataset.of = of;
      fillLesson(lessons, at, step, isAside);
    },
  };
}
