// Opens the page: the proved module, the worker, the panes.

import { actsOf, keysOf } from "./acts.js";
import { MOST_LINKED } from "./core/address.js";
import { askerOf } from "./core/asker.js";
import { $ } from "./core/dom.js";
import { moduleBytes, textOf, workerText } from "./core/files.js";
import { listenToKeys } from "./core/keys.js";
import { labAskerOf } from "./core/lab_asker.js";
import { openModule } from "./core/module.js";
import { titled } from "./model/moment.js";
import { viewsOf } from "./model/views.js";
import { pageOf } from "./page.js";
import { authorPane } from "./panes/author_tools.js";
import { comparisonPane } from "./panes/comparison.js";
import { contentsPane } from "./panes/contents.js";
import { editorPane } from "./panes/editor.js";
import { exercisePane } from "./panes/exercise.js";
import { gamePane } from "./panes/game.js";
import { labPane } from "./panes/lab.js";
import { lecturePane } from "./panes/lecture.js";
import { lessonPane } from "./panes/lesson.js";
import { picturePane } from "./panes/picture.js";
import { refusalPane } from "./panes/refusal.js";
import { reportPane } from "./panes/report.js";
import { stepsPane } from "./panes/steps.js";
import { toolsPane } from "./panes/tools.js";
import { verdictPane } from "./panes/verdict.js";

// The panes, in the order in which they show a moment: what the picture measures comes before it.
function panesOf(acts, {examples}, module, asker) {
  const comparison = comparisonPane(acts);
  return {
    tools: toolsPane(acts),
    verdict: verdictPane(acts),
    steps: stepsPane(acts),
    lecture: lecturePane(acts, examples, titled),
    lesson: lessonPane(acts, examples),
    game: gamePane(acts),
    lab: labPane(acts),
    exercise: exercisePane(acts),
    contents: contentsPane(),
    author: authorPane(acts, asker),
    refusal: refusalPane(acts, module),
    editor: editorPane(acts),
    report: reportPane(acts),
    comparison,
    picture: picturePane(acts, comparison),
  };
}

// What is said if the module does not run.
function cannotRun(error) {
  const isOld = error instanceof WebAssembly.CompileError, isMissing = /: 404$/.test(error.message);
  const needs = isOld ? " It needs 64-bit memory of WebAssembly: Chromium from 133, Firefox from 134." : "";
  $("bits").className = "refused";
  $("bits").textContent =
    `The proved module does not run here: ${error.message}.${isMissing ? " Open lamport_ring.html, which has it in it." : needs}`;
  $("picture").replaceChildren();
  document.title = "not run";
}

async function opened() {
  const examples = JSON.parse(await textOf("examples.json")), bytes = await moduleBytes(), module = await openModule(bytes);
  const asker = askerOf(await workerText("worker.js"), bytes), labAsker = labAskerOf(await workerText("lab_worker.js"));
  const page = pageOf({examples, views: viewsOf(module), asker, module, labAsker}), acts = actsOf(page);
  page.setPanes(panesOf(acts, page, module, asker));
  listenToKeys(() => page.state.mode, keysOf(page, acts));
  return page;
}

async function start() {
  let page;
  try {
    page = await opened();
  } catch (error) {
    return cannotRun(error);
  }
  const {state} = page;
  addEventListener("hashchange", page.follow);
  // A text that no link holds is lost with the page. (Chromium asks nobody who has not touched the page, and complains about that.)
  addEventListener("beforeunload", event => {
    if (navigator.userActivation?.hasBeenActive !== false && !state.example && state.text.length > MOST_LINKED) event.preventDefault();
  });
  await page.follow();
}

start();
