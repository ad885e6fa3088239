// What stays in view of a picture that is wider than its room: the names of its rows, and its legend.

import { LEFT } from "./sheet.js";

const NAMES = ".lane, .who, .wavename";
const WIDE = LEFT - 10; // up to the lanes

const isWide = svg => svg.getBoundingClientRect().width > document.querySelector("main").clientWidth + 1;

const made = (like, name, attributes) => {
  const it = document.createElementNS(like.namespaceURI, name);
  for (const [key, value] of Object.entries(attributes)) it.setAttribute(key, value);
  return it;
};

// Keeps the names of this picture at the left, in this frame; no names if it is not wider than its room.
export function keepNames(svg, frame) {
  if (!isWide(svg)) return frame.replaceChildren();
  const {width} = svg.getBoundingClientRect(), box = svg.viewBox.baseVal;
  const kept = made(svg, "svg", {class: "ring", viewBox: `0 ${box.y} ${WIDE} ${box.height}`, width: WIDE * width / box.width});
  const names = [...svg.querySelectorAll(NAMES)].map(it => it.cloneNode(true));
  kept.append(made(svg, "rect", {class: "bg", y: box.y, width: WIDE, height: box.height}), ...names);
  frame.replaceChildren(kept);
}

// The parts of a legend: for each, its shapes, in a picture of their own, and its words.
function partsOfLegend(legend) {
  const parts = [];
  let shapes = [];
  for (const it of legend.children) {
    if (it.localName !== "text") {
      shapes.push(it);
      continue;
    }
    const boxes = shapes.map(shape => shape.getBBox()), x = Math.min(...boxes.map(box => box.x)) - 2,
      y = Math.min(...boxes.map(box => box.y)) - 2;
    const width = Math.max(...boxes.map(box => box.x + box.width)) + 2 - x,
      height = Math.max(...boxes.map(box => box.y + box.height)) + 2 - y;
    const picture = made(legend, "svg", {class: "ring", viewBox: `${x} ${y} ${width} ${height}`, width, height});
    picture.append(...shapes.map(shape => shape.cloneNode(true)));
    parts.push({picture, words: it.textContent});
    shapes = [];
  }
  return parts;
}

// Keeps the legend of this picture under it, in this frame, as wide as the room; no legend if it is not wider than its room.
export function keepLegend(svg, frame) {
  const legend = svg.querySelector(".legends"), isKept = Boolean(legend) && isWide(svg);
  legend?.classList.toggle("elsewhere", isKept);
  frame.replaceChildren(...isKept ? partsOfLegend(legend).map(({picture, words}) => {
    const part = document.createElement("span");
    part.append(picture, ` ${words}`);
    return part;
  }) : []);
}
