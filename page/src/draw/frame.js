// A picture in the page. Each line of its text is an element, and one whose line is there already stays: after a step most do.

import { HEADING } from "./sheet.js";

const standings = new WeakMap(); // of a frame what was put there last: {svg, lines}

const parsed = text => document.adoptNode(new DOMParser().parseFromString(text, "image/svg+xml").documentElement);

// Makes the elements of a picture, one of each of its lines, those of other `lines`; the result is a picture with this head and what is
// new.
function renew({svg, lines: old}, head, lines) {
  const wanted = new Set(lines), children = [...svg.children], gone = [], fresh = [], places = [];
  let at = 0;
  for (const line of lines) {
    while (at < old.length && !wanted.has(old[at])) gone.push(children[at++]);
    if (old[at] === line) {
      at++;
      continue;
    }
    fresh.push(line);
    places.push(children[at] ?? null);
  }
  const made = parsed(`${head}${fresh.join("")}</svg>`);
  [...made.children].forEach((it, i) => svg.insertBefore(it, places[i]));
  for (const it of [...gone, ...children.slice(at)]) it.remove();
  return made;
}

// The text of a drawing, for a frame, in which its verdict and its reasons are above it; with its width, its height divided by that, and
// its attributes.
export function textFor(drawn, more) {
  const text = drawn.draw({...drawn, ring: null, why: "", due: "", ...more}),
    [width, height] = /viewBox="0 0 (\S+) (\S+)"/.exec(text).slice(1).map(Number);
  return {text, width, aspect: height / width, attributes: {viewBox: `0 ${HEADING} ${width} ${height - HEADING}`}};
}

// Puts the picture of this text into a frame, with these attributes.
export function put(frame, text, attributes) {
  const [head, ...lines] = text.split("\n").slice(0, -2), old = standings.get(frame),
    isThere = old !== undefined && frame.firstElementChild === old.svg;
  const standing = isThere ? old : {svg: parsed(`${head}</svg>`), lines: []}, {svg} = standing, made = renew(standing, head, lines);
  standings.set(frame, standing);
  for (const {name} of made.attributes) {
    const value = attributes[name] ?? made.getAttribute(name);
    if (svg.getAttribute(name) !== value) svg.setAttribute(name, value);
  }
  standing.lines = lines;
  if (!isThere) frame.replaceChildren(svg);
}
