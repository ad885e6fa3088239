// What several parts of the page take from the document.

export const $ = id => document.getElementById(id);
export const node = (name, text, className = "") => Object.assign(document.createElement(name), {textContent: text, className});
