// What the module says about the whole of a recording.

import { linesOf, startsOf } from "../text/recorded_lines.js";

export const MOST_REPORTED = 20000; // lines of a recording of which a report is asked for at each step; of more lines, a little later

// What is found about a whole recording, with its lines; `before` is the report of what comes before a fault, if there are few lines.
export function recordingFound(module, text) {
  const it = module.calls(text);
  if (it.refused) return {...it, lines: startsOf(text)};
  const lines = linesOf(text);
  return {...it, text, lines, before: it.line && lines.count <= MOST_REPORTED ? module.calls(text, lines.starts[it.line]).report : null};
}
