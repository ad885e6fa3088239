// Turns of the event loop.

const PAUSE = 10; // milliseconds; a browser delays a timer that repeats itself by 4

// Resolves in a later turn, so that what is waiting, such as a key or a frame to be painted, comes first.
export const laterTurn = () => new Promise(done => setTimeout(done, PAUSE));
