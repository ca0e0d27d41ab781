// The engine: the program as a WebAssembly module, run in a worker so that the page stays awake and can stop it.
const MADE = JSON.parse($('about-engine').textContent);
const workerAddress = URL.createObjectURL(new Blob([$('worker').textContent], { type: 'text/javascript' }));
let compiled = null, worker = null;

const hex = bytes => [...new Uint8Array(bytes)].map(it => it.toString(16).padStart(2, '0')).join('');
const through = (bytes, stream) => new Response(new Blob([bytes]).stream().pipeThrough(stream)).arrayBuffer();

// Unpacks the module and sees that it is the one that the page says it has.
async function loadEngine() {
  const packed = Uint8Array.from(atob($('module').textContent.trim()), sign => sign.charCodeAt(0));
  const bytes = await through(packed, new DecompressionStream('gzip'));
  const sum = globalThis.crypto?.subtle ? hex(await crypto.subtle.digest('SHA-256', bytes)) : null;
  if (sum !== null && sum !== MADE.sha256) throw new Error(`The module isn't the one that was put into this page: its SHA-256 is ${sum}`);
  compiled = await WebAssembly.compile(bytes);
  $('engine').replaceChildren(`The engine is the program itself: a WebAssembly module of ${counted(bytes.byteLength)} bytes, made from`
    + ` the program's proved build at commit ${MADE.commit}. SHA-256${sum ? ', found right when this page was opened' : ''}: `,
  el('code', {}, MADE.sha256));
}

// Runs the program on these words and files: what it wrote and its status. `halt` cuts it off.
function runProgram(words, files, onProgress = () => {}) {
  return new Promise((resolve, reject) => {
    const mine = worker = new Worker(workerAddress);
    const ended = () => { mine.terminate(); if (worker === mine) worker = null; };
    mine.onmessage = ({ data }) => {
      if (data.kind === 'progress') return onProgress(data);
      ended();
      if (data.kind === 'done') resolve(data);
      else reject(new Error(data.error));
    };
    mine.onerror = event => { ended(); reject(new Error(event.message || 'the worker failed')); };
    mine.postMessage({ module: compiled, words, files });
  });
}
function halt() {
  if (worker) worker.terminate();
  worker = null;
}

// The lines that were written, without decoding more than is asked for.
function* linesOf(bytes) {
  for (let from = 0; from < bytes.length;) {
    const end = bytes.indexOf(10, from), to = end < 0 ? bytes.length : end;
    yield wordsOf(bytes.subarray(from, to));
    from = to + 1;
  }
}
function lastLine(bytes) {
  const end = bytes.at(-1) === 10 ? bytes.length - 1 : bytes.length;
  return wordsOf(bytes.subarray(bytes.lastIndexOf(10, end - 1) + 1, end));
}
