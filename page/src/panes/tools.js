// What is in the head of the page: waveforms, files, the theme, the help, the first screen.

import { $ } from "../core/dom.js";

// The pane. `acts` has `setWaves`, `setTheme` and `openFile`.
export function toolsPane(acts) {
  let theme = "";
  $("ask").onclick = () => $("help").showModal();
  $("close").onclick = () => $("help").close();
  $("waves").onchange = () => acts.setWaves($("waves").value);
  $("theme").onclick = () => {
    const isDark = theme ? theme === "dark" : matchMedia("(prefers-color-scheme: dark)").matches;
    acts.setTheme(isDark ? "light" : "dark");
  };
  $("open").onclick = () => $("file").click();
  $("file").onchange = () => {
    const [file] = $("file").files;
    if (file) acts.openFile(file);
    $("file").value = "";
  };
  const hasFile = event => event.dataTransfer?.types.includes("Files");
  addEventListener("dragover", event => hasFile(event) && event.preventDefault());
  addEventListener("drop", event => {
    if (!hasFile(event)) return;
    event.preventDefault();
    acts.openFile(event.dataTransfer.files[0]);
  });
  return {
    render(state) {
      ({theme} = state);
      $("waves").value = state.waves;
      $("welcome").hidden = !state.isWelcome;
    },
  };
}
