// Runs one command of the program beside the page. What comes in: the compiled module, the words, the files by name. What
// goes out: how far it is, then all that it wrote and its status, or why it broke off.
self.onmessage = ({ data: { module, words, files } }) => {
  const begun = performance.now(), parts = [];
  let goals = 0, size = 0, told = 0;
  const isGoal = bytes => bytes[2] === 103 && bytes[5] === 108 && bytes[6] === 34;   // it begins with {"goal"
  const write = (place, bytes) => {
    if (place === 1) {
      parts.push(bytes);
      size += bytes.length;
      goals += isGoal(bytes) ? 1 : 0;
      if (performance.now() - told > 120) {
        told = performance.now();
        self.postMessage({ kind: 'progress', goals, size });
      }
    }
    return bytes.length;
  };
  try {
    const find = name => Object.hasOwn(files, name) ? files[name] : null;
    const { status, memory } = machine({ words, find, write }).run(module);
    const out = new Uint8Array(size);
    parts.reduce((at, part) => { out.set(part, at); return at + part.length; }, 0);
    self.postMessage({ kind: 'done', status, out, goals, memory, ms: performance.now() - begun }, [out.buffer]);
  } catch (error) {
    self.postMessage({ kind: 'broken', error: String(error), goals });
  }
};
