// Asks a worker of the page's own (worker.js) about the recording that is shown. It is made from a text, since a page opened from disk
// may read no other file.

const IDLE = 30000; // milliseconds without a question, until the worker's memory is given back

// An asker, with the text of the worker and the bytes of the module. `ask` passes each answer to `then`, and reports of progress to
// `meanwhile`; an answer on a recording that is no longer shown is dropped. It returns whether there is a worker: a browser may allow none.
// `stop` ends what is under way.
export function askerOf(script, bytes) {
  let worker = null, text = null, number = 0, idle = 0;
  const waiting = new Map();

  const open = () => {
    const address = URL.createObjectURL(new Blob([script], {type: "text/javascript"}));
    try {
      worker = new Worker(address);
    } catch {
      return false;
    } finally {
      URL.revokeObjectURL(address);
    }
    worker.onmessage = ({data}) => {
      const it = waiting.get(data.number);
      if (data.answer === undefined) return it?.meanwhile?.(data.count);
      waiting.delete(data.number);
      clearTimeout(idle);
      idle = setTimeout(() => waiting.size || stop(), IDLE);
      it?.then(data.answer);
    };
    worker.postMessage({bytes});
    return true;
  };

  const stop = () => {
    worker?.terminate();
    worker = text = null;
    waiting.clear();
  };

  const ask = (of, asks, more, then, meanwhile) => {
    if (!worker && !open()) return false;
    if (text !== of) waiting.clear();
    waiting.set(++number, {then, meanwhile});
    worker.postMessage({...text === of ? {} : {text: of}, asks, number, ...more});
    text = of;
    return true;
  };

  return {ask, stop};
}
