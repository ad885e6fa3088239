// The style sheets of pictures: their forms and, light or dark, their colours.

const LIGHT = {bg: "#fff", band: "#f4f5f7", ink: "#1b1f24", dim: "#69707a", grid: "#e0e3e7", s: "#0b5fc0", r: "#08784f",
  x: "#4d5560", c: "#7b3bb8", may: "#f0a800", mayInk: "#7a5000", shade: 0.3, good: "#08784f", bad: "#cc1f2d"};
const DARK = {bg: "#11151a", band: "#181d24", ink: "#eceff2", dim: "#97a1ac", grid: "#2b323a", s: "#62adff", r: "#43d296",
  x: "#c2c9d2", c: "#cda4ff", may: "#ffc93d", mayInk: "#ffd97a", shade: 0.24, good: "#43d296", bad: "#ff6a6a"};

const FORMS = `
.ring{font-family:ui-monospace,"DejaVu Sans Mono",Menlo,Consolas,monospace}
.ring .verdict{font-size:20px;font-weight:700}.ring .title{font-size:15px}.ring .legend{font-size:12.5px}
.ring .lane{font-size:24px;font-weight:700;text-anchor:middle}.ring .who{font-size:11px;text-anchor:middle}
.ring .line{font-size:11.5px;text-anchor:middle;paint-order:stroke;stroke-width:4px}.ring .line.bad{font-weight:700;stroke:none}
.ring .bit{font-size:14px;font-weight:600;text-anchor:middle}.ring .digit{font-size:18px;font-weight:700;text-anchor:middle}
.ring .write path{stroke-width:2}.ring .read path{fill:none;stroke-width:2.5}.ring .free path{stroke-dasharray:6 3}
.ring .clashedge{stroke-width:1.5}.ring .pale{opacity:.3}
.ring .fault path{stroke-width:3.5;stroke-dasharray:none}.ring .faultline{stroke-width:2}
.ring .flagwords{font-size:14px;font-weight:700}
.ring .wavename{font-size:14px;font-weight:600;text-anchor:end}.ring .level{fill:none;stroke-width:2.5}
.ring .held{font-size:12.5px;font-weight:600}.ring .becomes{font-size:12.5px;font-weight:600;text-anchor:middle}
.ring .underway{stroke-width:1.5}.ring .hatch{fill:none;stroke-width:1}.ring .digit.little{font-size:11.5px}
.ring .bar path{fill:none;stroke-width:2}.ring .bar.fault path,.ring .bar.against path{stroke-width:3.5}
.ring .asks{font-size:12.5px;font-weight:600;text-anchor:middle}.ring .says{font-size:11.5px;text-anchor:middle}
.ring .later{opacity:.45}.ring .later path{stroke-dasharray:3 4;stroke-width:1.5}
.ring .cursor{stroke-width:3}.ring .line.now{font-weight:700}
.ring .break{stroke-width:2;stroke-dasharray:2 8}
.ring .order{stroke-width:1.5}.ring .operation path{fill:none;stroke-width:1.5}
.ring .call path{fill:none;stroke-width:1.5}.ring .call.fault path,.ring .call.against path{stroke-width:3}
.ring .callwords{font-size:12.5px;font-weight:600;text-anchor:middle}.ring .part,.ring .effect{font-size:11px;text-anchor:middle}`;

function paints(it) {
  const families = ["s", "r", "x", "c"].map(name => `.ring .${name} text,.ring text.${name}{fill:${it[name]}}`
    + `.ring .${name} path,.ring path.${name}{stroke:${it[name]}}.ring .write.${name} path{fill:${it[name]}}`).join("\n");
  return `
.ring .bg{fill:${it.bg}}.ring .band{fill:${it.band}}.ring text{fill:${it.ink}}
.ring .title,.ring .legend,.ring .who,.ring .line{fill:${it.dim}}.ring .line{stroke:${it.bg}}
.ring .grid{stroke:${it.grid}}.ring .tie{stroke:${it.dim};stroke-opacity:.55}
.ring .hatch{stroke:${it.may};stroke-opacity:.6}.ring .level{stroke:${it.ink}}
.ring .clash{fill:${it.may};fill-opacity:${it.shade}}.ring .clashedge{stroke:${it.may}}
${families}
.ring .write .digit{fill:${it.bg}}.ring .read.free path{fill:${it.may};fill-opacity:${it.shade}}
.ring .underway{fill:${it.may};fill-opacity:${it.shade};stroke:${it.may}}.ring .becomes{fill:${it.mayInk}}
.ring .call path,.ring .order,.ring .operation path{stroke:${it.dim}}.ring .call.against path{stroke:${
    it.mayInk}}.ring .call.fault .callwords{fill:${it.bad}}.ring .operation circle{fill:${it.ink}}.ring .part,.ring .effect{fill:${it.dim}}
.ring .verdict.good,.ring tspan.good{fill:${it.good}}.ring .verdict.bad,.ring .title.bad,.ring tspan.bad{fill:${
    it.bad}}.ring tspan.dim{fill:${it.dim}}
.ring .bar .asks{fill:${it.ink}}.ring .cursor{stroke:${it.ink}}.ring .line.now{fill:${it.ink}}.ring .line.bad.now{fill:${
    it.bg}}.ring .break{stroke:${it.dim}}
.ring .bar.against path,.ring .faultline.against{stroke:${it.mayInk}}.ring .fault path,.ring .faultline{stroke:${
    it.bad}}.ring .fault .bit,.ring .read.fault .digit{fill:${it.bad}}
.ring .flag{fill:${it.bad}}.ring .flag.against,.ring .chip{fill:${it.mayInk}}.ring .flagwords,.ring .line.bad{fill:${it.bg}}`;
}

const FORCED = {bg: "Canvas", band: "Canvas", ink: "CanvasText", dim: "CanvasText", grid: "GrayText", s: "CanvasText", r: "CanvasText",
  x: "CanvasText", c: "CanvasText", may: "Highlight", mayInk: "CanvasText", shade: 0.4, good: "CanvasText", bad: "CanvasText"};

// The style sheet of pictures within the page: on paper they are light, and a system that forces its colours has them.
export const styleWithin = theme => `${styleOf(theme)}
@media print{${paints(LIGHT)}}
@media (forced-colors:active){${paints(FORCED)}.ring{forced-color-adjust:none}.ring .flag{fill:CanvasText}}`;

// The style sheet of pictures: light, dark, or as the reader's system is set.
export function styleOf(theme) {
  if (theme) return FORMS + paints(theme === "dark" ? DARK : LIGHT);
  return `${FORMS}${paints(LIGHT)}\n@media (prefers-color-scheme:dark){${paints(DARK)}}`;
}
