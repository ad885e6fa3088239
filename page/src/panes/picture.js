// The picture in the page: drawn anew for its room, reached and stepped through by keys, kept in view.

import { $ } from "../core/dom.js";
import { saveAs } from "../core/saving.js";
import { put, textFor } from "../draw/frame.js";
import { keepLegend, keepNames } from "../draw/row_names.js";
import { NARROWEST } from "../draw/sheet.js";

const LARGE = 1.5; // times its own size that a picture is shown at least, for a class to read its letters
const LONG = 1.2; // times the height of the window from which on a picture is scrolled, and not shrunk
const NOTHING_FOUND = {fault: null, broken: null, found: null, contradicts: null, against: [], head: ""};

const room = () => document.querySelector("main");
const bars = () => [...$("picture").querySelectorAll("[data-line]")];
const at = it => it.getBoundingClientRect();

// The height over the width of the room that a picture has, one of `count` in it.
export function aspectNow(isSmall, count) {
  const {clientWidth, clientHeight} = room();
  return isSmall ? 0.9 : (clientHeight / count - 20) / (clientWidth - 20);
}

// Scrolls the picture, and nothing around it, so that this part of it is in the middle of its visible area, between the verdicts and the
// buttons.
function center(part, isSmall) {
  if (!part) return;
  const box = at(room()), it = at(part), top = Math.max(box.top, at($("told")).bottom);
  const under = isSmall ? [$("steps"), $("moves")].map(button => at(button).top).filter(edge => edge > top) : [];
  const bottom = Math.min(box.bottom, innerHeight, ...under);
  room().scrollBy({top: (it.top + it.bottom - top - bottom) / 2, left: it.left + it.width / 2 - box.left - box.width / 2});
}

// The bars are reached by the Tab key, which stops at one of them, and by the up and down arrow keys.
function reach(bar, isFocused, role) {
  const all = bars(), one = bar ?? all.at(-1);
  for (const it of all) {
    const index = it === one ? "0" : "-1";
    if (it.getAttribute("tabindex") === index) continue;
    it.setAttribute("tabindex", index);
    it.setAttribute("role", role);
    it.setAttribute("aria-label", it.querySelector("title").textContent);
  }
  if (isFocused) one?.focus({preventScroll: true});
}

// The pane. `acts` has `stepToBar` and `selectBar`, each given the line of a bar; `comparison` shares the room.
export function picturePane(acts, comparison) {
  const isSmall = matchMedia("(max-width: 52rem)"); // as in page.css
  let state = null, now = null;
  const role = () => state.mode === "script" ? "img" : "button";

  function draw() {
    const frame = $("picture"), focused = frame.contains(document.activeElement) ? document.activeElement.dataset.line : null;
    $("save").disabled = now.drawing === null;
    comparison.keepNames();
    if (now.drawing === null) {
      document.body.classList.remove("long");
      for (const id of ["names", "legend"]) $(id).replaceChildren();
      return frame.replaceChildren();
    }
    const aspect = aspectNow(isSmall.matches, comparison.isOn() ? 2 : 1);
    const drawnBy = more => textFor(now.drawing, {aspect, ...comparison.rows(), ...more, ...state.isFolded ? NOTHING_FOUND : {}});
    // With the picture alone its letters are large, if all of it fits that way.
    const large = state.isLarge ? drawnBy({widest: Math.max(NARROWEST, innerWidth / LARGE)}) : null,
      drawn = large && large.aspect <= aspect ? large : drawnBy({});
    document.body.classList.toggle("long", !state.isLarge && drawn.aspect > aspect * LONG); // (first: it decides how wide the picture is)
    put(frame, drawn.text, {...drawn.attributes, role: "group"});
    frame.firstElementChild.style.setProperty("--breadth", drawn.width);
    frame.firstElementChild.style.maxHeight = state.isLarge ? `${room().clientHeight - 8}px` : "";
    keepNames(frame.firstElementChild, $("names"));
    keepLegend(frame.firstElementChild, $("legend"));
    reach(frame.querySelector(`[data-line="${focused}"]`), focused !== null, role());
  }

  $("picture").onclick = event => acts.stepToBar(event.target.closest("[data-line]")?.dataset.line);
  $("picture").onkeydown = event => {
    const all = bars(), place = all.indexOf(event.target.closest("[data-line]")),
      to = {ArrowDown: place + 1, ArrowUp: place - 1}[event.key];
    if (place < 0 || event.ctrlKey || event.altKey || event.metaKey) return;
    if (to !== undefined) {
      reach(all[to] ?? all[place], true, role());
      center(document.activeElement, isSmall.matches);
    } else if (event.key === "Enter" || event.key === " ") acts.selectBar(all[place].dataset.line);
    else return;
    event.preventDefault();
  };
  // The picture as a file of its own, for a slide.
  $("save").onclick = () =>
    saveAs(`${state.example || state.mode}.svg`, now.drawing.draw({...now.drawing, theme: state.theme}), "image/svg+xml");
  addEventListener("resize", () => state && draw());

  return {
    aspect: count => aspectNow(isSmall.matches, count),
    render(newState, newNow, isStep) {
      [state, now] = [newState, newNow];
      draw();
      const isScrolled = document.body.classList.contains("long") || isSmall.matches || isStep;
      const last = marks => [...$("picture").querySelectorAll(marks)].at(-1);
      // A text opens at its fault, and a step goes to the cursor.
      if (isScrolled) center((isStep ? null : last(".flag")) ?? last(".now") ?? last(".line"), isSmall.matches);
    },
  };
}
