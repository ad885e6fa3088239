// The state of the page: what the reader has chosen. All that is shown follows from it and from the module's word on its text
// (model/moment.js). `change` of main.js alone writes it.

export const MODES = ["trace", "script", "calls", "register", "lab"];
export const WAVES = ["some", "all", "none"];

// The state before any text was shown. `shown` is how many events, letters or lines are asked for; Infinity: where a text opens.
export const newState = () => ({
  mode: "", // of MODES, once a text is shown
  text: "",
  example: "", // the name of the example, "" if the text is another
  file: "", // the name of the file from which it was opened
  lesson: "", // the name of the lesson beside it, which stays while its text is edited
  course: null, // the number of the step of the course
  isFolded: false, // of a step of the course, or of a lesson of the lab: what is found about it is hidden until it is asked for
  goal: "", // of a play by hand
  missed: "", // of a register: the class that it misses whose history, or line, is shown; "" for the weakest
  bound: null, // of the lab: {writes, reads}, if they are not those that the text names
  isTrusted: false, // of the lab: the text may run, since the reader wrote it or asked for that
  exercise: null, // of the lab: what a teacher asks for, {text, title, task, needs}
  asked: "", // the side whose overlapped read is to be answered
  shown: Infinity,
  waves: "some", // whose waveforms are drawn
  theme: "", // "light", "dark", or "" as the system is set
  note: "", // what is said of the text, beside the editor
  refusal: "", // why a file was not opened, whose text then is none
  offer: null, // and what is offered instead: {words, label, mode, text}
  isHinted: false, // of a play by hand: the hint is shown
  isWelcome: false, // the first screen
  isLarge: false, // the picture alone, in large letters
  hasNotes: false, // under it, what to say and the question
  left: Object.fromEntries(MODES.map(mode => [mode, null])), // what was shown in a mode that was left
});
