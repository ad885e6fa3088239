// Explores the text of a construction in a worker that is made of the lab's script and that text, and ends with it. Nothing that the
// worker posts is taken for more than data.

const MORE = 3000; // milliseconds beyond those of a search, until a worker that does not answer is stopped
const MOST_WORDS = 600; // characters of what is said to be wrong

// (If Firefox cannot read a script, it reports that without a word about why.)
const NO_PLACE = "the text has a syntax error; this browser does not say in which line, Chromium does";

const isList = it => Array.isArray(it);
const linesIn = text => text.split("\n").length;

// The whole script, and how many lines precede the text.
function scriptWith(script, text, bounds) {
  const before = `(() => {\n${script}\n})();\nconstruction(${JSON.stringify(bounds)}, () => (\n`;
  return {whole: `${before}${text.replace(/[;\s]*$/, "")}\n));\n`, lines: linesIn(before) - 1};
}

// An asker over the lab's script. `explore` passes the outcome for a text to `then`, as {found, met}, {wrong, line}, {late} or {none} (the
// browser lets no worker run), and the number of states so far to `meanwhile`. Another search, or `stop`, ends the one under way.
export function labAskerOf(script) {
  let worker = null, timer = 0;

  const stop = () => {
    clearTimeout(timer);
    worker?.terminate();
    worker = null;
  };

  function explore(text, bounds, then, meanwhile) {
    stop();
    const {whole, lines: before} = scriptWith(script, text, bounds), last = linesIn(text.trimEnd());
    const address = URL.createObjectURL(new Blob([whole], {type: "text/javascript"}));
    try {
      worker = new Worker(address);
    } catch {
      return then({none: true});
    } finally {
      URL.revokeObjectURL(address);
    }
    const mine = worker, end = answer => {
      if (worker !== mine) return;
      stop();
      then(answer);
    };
    // The line of the text at a line of the script, or 0; what is missing at the end is reported after the text.
    const lineIn = line => Number.isInteger(line) && line > before ? Math.min(line - before, last) : 0;
    mine.onmessage = ({data}) => {
      if (worker !== mine || data === null || typeof data !== "object") return;
      if (Number.isInteger(data.states)) meanwhile(data.states);
      else if (typeof data.wrong === "string")
        end({wrong: data.wrong.slice(0, MOST_WORDS), line: isList(data.lines) ? data.lines.map(lineIn).find(it => it > 0) ?? 0 : 0});
      else end({found: data.found, met: data.met});
    };
    mine.onerror = event => {
      event.preventDefault();
      end({wrong: String(event.message ?? NO_PLACE).replace(/^Uncaught /, "").slice(0, MOST_WORDS),
        line: lineIn(event.lineno)});
    };
    timer = setTimeout(() => end({late: true}), bounds.milliseconds + MORE);
  }

  return {explore, stop};
}
