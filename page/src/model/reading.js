// What the module says about the whole of a text: at once if that is short, else by the worker, and until then what is under way.

import { orStopped } from "../core/module.js";

const LONG = 300000; // characters of recorded calls, or of a script, from which on the worker reads them
const TICK = 100; // milliseconds between words on what is under way

// A reader. `ask` asks the worker (core/asker.js), `views` are the kinds of text, and `show` is called when there is something new. The
// answer has `read`, which returns the whole of a text, or what is `pending` of it; `stop`, and `end`, which shows nothing.
export function readerOf({asker, views, show}) {
  let timer = 0, under = null; // what the worker reads

  const end = () => {
    clearInterval(timer);
    under = null;
  };
  const pendingOf = (text, began) => {
    const millions = (text.length / 1e6).toFixed(1), seconds = ((performance.now() - began) / 1000).toFixed(1);
    return {pending: `auditing ${millions} million characters .. ${seconds} s`};
  };

  const readLater = (mode, text) => {
    const began = performance.now(), mine = under = {mode, text};
    const isAsked = asker.ask(text, "read", {mode}, answer => {
      if (under !== mine) return;
      end();
      show(views[mode].fromWorker(answer, text));
    });
    if (!isAsked) return null;
    timer = setInterval(() => show(pendingOf(text, began)), TICK);
    return pendingOf(text, began);
  };

  return {
    end,
    read(mode, text) {
      end();
      const later = text.length > LONG && (mode === "calls" || mode === "script") ? readLater(mode, text) : null;
      return later ?? orStopped(() => views[mode].read(text));
    },
    stop() {
      if (!under) return;
      asker.stop();
      end();
      show({refused: "stopped before it was read to its end", line: 0});
    },
  };
}
