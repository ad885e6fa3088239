// The editor: a text, with the numbers of its lines. If a text is too long for it, it shows some lines, which cannot be edited.

import { MOST_LINKED } from "../core/address.js";
import { $, node } from "../core/dom.js";
import { MODES } from "../core/state.js";

const SEEN_LINES = 400, MOST_SEEN = 40000; // lines that are seen of a text that is too long, and characters at most
const MOST_BEGUN = 2000; // characters that are seen of it before its lines are known
const NAMES = {calls: "recorded calls", register: "recorded register", lab: "construction"};
const EDGE = 50; // lines at their ends, from which on others are put in
const MOST_INSERTED = 2000; // characters that the browser inserts by itself, which takes it long

// The pane. `acts` has `edit`, `setMode`, `open`, which shows another text, and `leave`, after which Back leads to what is there now. The
// answer has ways to scroll and select, too.
export function editorPane(acts) {
  const field = $("text"), box = $("editor");
  let shownText = null, mode = "", inGutter = "", noteOfLines = "";
  let long = null; // of a text that is too long: {lines, first, last, at}, of whose lines, if they are known, those from `first` on are
                   // seen, from the character `at` on

  // Puts a text in. If it is too long, `lines` are those that were found in it; until they are found, its beginning is shown.
  const put = (text, lines) => {
    if (text === shownText && !(long && long.lines !== lines)) return;
    long = text.length > MOST_LINKED ? {lines, first: 0, last: 0, at: 0} : null;
    shownText = text;
    noteOfLines = "";
    field.readOnly = long !== null;
    const seen = long ? text.slice(0, MOST_BEGUN) : text;
    if (field.value !== seen) field.value = seen;
  };

  // Shows, of a text that is too long, the lines around this one. They stay while it is not at their edge.
  const showLines = line => {
    if (!long?.lines || long.first + EDGE <= line && line <= long.last - EDGE) return;
    const {lines: {starts, count}} = long, first = Math.max(1, Math.min(line - SEEN_LINES / 2, count - SEEN_LINES + 1));
    const last = Math.min(count, first + SEEN_LINES - 1);
    if (first === long.first && last === long.last) return;
    Object.assign(long, {first, last, at: starts[first]});
    field.value = shownText.slice(starts[first], Math.min(starts[last + 1], starts[first] + MOST_SEEN));
    noteOfLines = `lines ${first} to ${last} of ${count}: too long to be edited here, and for a link`;
  };

  const lastLine = () => {
    if (long) return long.last;
    const text = field.value;
    let last = text === "" || text.endsWith("\n") ? 0 : 1;
    for (let at = text.indexOf("\n"); at >= 0; at = text.indexOf("\n", at + 1)) last++;
    return Math.max(last, 1);
  };

  // The numbers of the lines: the bad one marked, those that are not shown yet pale, by a veil over them.
  const number = (bad, shown) => {
    const first = long?.first ?? 1, last = lastLine();
    $("veil").style.marginTop = `calc(.7rem + ${Math.max(0, Math.min(shown, last) - first + 1) * 1.5}em)`;
    if (inGutter === `${first} ${last} ${bad}`) return;
    inGutter = `${first} ${last} ${bad}`;
    const run = (from, to) => Array.from({length: Math.max(0, to - from + 1)}, (_, i) => from + i + "\n").join("");
    const isMarked = bad && first <= bad && bad <= last;
    $("numbers").replaceChildren(run(first, isMarked ? bad - 1 : last), ...isMarked ? [node("b", bad), "\n", run(bad + 1, last)] : []);
    field.style.height = `${(last - first + 1) * 1.5 + 3}em`;
  };

  // A script has no numbers of lines.
  const unnumber = () => field.style.height = inGutter = "";

  const scrollToLine = line => {
    const tall = parseFloat(getComputedStyle(field).lineHeight), at = (line - (long?.first ?? 1)) * tall;
    if (at < box.scrollTop) box.scrollTop = at - tall;
    else if (at + 3 * tall > box.scrollTop + box.clientHeight) box.scrollTop = at + 3 * tall - box.clientHeight;
  };

  // Selects a stretch of the text, and goes there if that is asked for; if the text `hasLines` it is scrolled to its line.
  const select = ({from, to}, hasLines, goes = true) => {
    const at = long?.at ?? 0;
    if (goes) field.focus({preventScroll: true});
    field.setSelectionRange(from - at, to - at);
    if (hasLines) scrollToLine(field.value.slice(0, from - at).split("\n").length + (long?.first ?? 1) - 1);
  };

  // A paste: the page itself inserts a long text, and one too long for the editor replaces everything that was there. The browser
  // does not undo that, so the page leaves what was there, to which Back leads.
  field.onpaste = event => {
    const text = event.clipboardData.getData("text/plain").replace(/\r\n?/g, "\n");
    if (text.length <= MOST_INSERTED && !field.readOnly) return;
    event.preventDefault();
    if (text.length > MOST_LINKED || field.readOnly) return acts.open(mode, {text});
    acts.leave();
    field.setRangeText(text, field.selectionStart, field.selectionEnd, "end");
    field.dispatchEvent(new Event("input"));
  };
  field.oninput = () => {
    shownText = field.value;
    acts.edit(shownText);
  };
  for (const radio of document.querySelectorAll("input[name=mode]")) radio.onchange = () => acts.setMode(radio.value);

  return {
    scrollToLine, select,
    // Selects a line, and goes there if that is asked for.
    selectLine(line, goes) {
      showLines(line);
      let from = long?.at ?? 0;
      for (let at = long?.first ?? 1; at < line; at++) from = shownText.indexOf("\n", from) + 1;
      select({from, to: shownText.indexOf("\n", from)}, true, goes);
    },
    // To the top, and to the line that is marked; otherwise to the last that is shown, of `shown` events, or to the last that is seen.
    scrollToMarked(shown) {
      box.scrollTop = 0;
      scrollToLine(Number($("numbers").querySelector("b")?.textContent ?? (shown < Infinity ? shown + 1 : long?.last ?? 1)));
    },
    render(state, {whole, it, isRefused, shown}, isStep) {
      put(state.text, whole.lines ?? null);
      if (mode !== state.mode) {
        mode = state.mode;
        for (const name of MODES) document.body.classList.toggle(name, mode === name);
        document.querySelector(`input[name=mode][value=${mode}]`).checked = true;
        field.setAttribute("aria-label", NAMES[mode] ?? mode);
      }
      const line = isRefused || mode === "lab" ? Infinity : shown + 1;
      showLines(it.line && !isStep ? it.line : line);
      if (mode === "script") unnumber();
      else number(state.isFolded ? 0 : it.line, line);
      const tooLong =
        state.text.length > MOST_LINKED && !long && !state.example ? "this text is too long for a link: keep it in a file" : "";
      $("note").textContent = [state.note, noteOfLines, tooLong].filter(Boolean).join("; ");
    },
  };
}
