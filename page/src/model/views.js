// The kinds of text, by what the proved module says about them. `read` asks it for the whole, `at` for as much as is shown: its words,
// `line` at fault and what the step is. A text opens at the `first` and shows the `most`; `drawing` is what its picture is made of; `rows`
// has its report, and `of` says what that is about. For a register, `chosen` is the whole with the class whose history the reader chose,
// and `misses` has a button for each class that it misses.

import { callsView } from "./calls_view.js";
import { labView } from "./lab_view.js";
import { registerView } from "./register_view.js";
import { scriptView } from "./script_view.js";
import { traceView } from "./trace_view.js";

export const viewsOf = module => ({trace: traceView(module), script: scriptView(module), calls: callsView(module),
  register: registerView(module), lab: labView});
