// The files of the page: the single-file page contains them, and one that a server sends fetches them.

async function fetched(name) {
  const answer = await fetch(`made/${name}`);
  if (!answer.ok) throw new Error(`${name}: ${answer.status} ${answer.statusText}`);
  return answer;
}

export const textOf = async name => globalThis.ringTexts?.[name] ?? (await fetched(name)).text();

// The text of the script of a worker. In the single-file page all scripts are one, whose last line says which of them starts.
export async function workerText(name) {
  const all = document.getElementById("script")?.textContent;
  return all ? all.replace(/\buse\("main\.js"\);\s*$/, `use("${name}");\n`) : textOf(`${name}.joined`);
}

// The bytes of the proved module.
export async function moduleBytes() {
  if (globalThis.ringModule === undefined) return (await fetched("ring_page.wasm")).arrayBuffer();
  return Uint8Array.from(atob(globalThis.ringModule), it => it.charCodeAt(0)).buffer;
}

// The name of the file of an example.
const FILES = {
  trace: name => `examples/${name}.trace`,
  script: name => `examples/${name}.json`,
  calls: name => `examples/calls/${name}.calls`,
  register: name => `examples/registers/${name}.reg`,
  lab: name => `page/constructions/${name}.js`,
};

export const exampleText = (mode, name) => textOf(FILES[mode](name));
