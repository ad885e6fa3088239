// Texts and pictures that the reader keeps as files.

// Saves a text as a file.
export function saveAs(name, text, type = "text/plain") {
  const anchor = Object.assign(document.createElement("a"), {href: URL.createObjectURL(new Blob([text], {type})), download: name});
  anchor.click();
  setTimeout(() => URL.revokeObjectURL(anchor.href), 1000);
}
