// Runs cases on the module, each on a machine of its own: node cases.mjs PAGE < CASES. A case is a line of JSON: `words`, and
// `files` by name; by `pages`, how many pages of memory more than at its start are given; by `room`, how many bytes the sink
// takes. For each a line: `out`, as base64, `status`, and how many pages of memory the module held in the end.
import { createInterface } from 'node:readline';
import { machine, moduleIn } from '../engine/node.mjs';

const PAGE = 65536;
const bytes = moduleIn(process.argv[2]).bytes;
const whole = new WebAssembly.Module(bytes);

const bytesOf = value => typeof value === 'string' ? Buffer.from(value) : Buffer.from(value.hex, 'hex');

// A number as WebAssembly writes it, from there on: its value and the place behind it.
function numberAt(at) {
  for (let value = 0, shift = 0; ; shift += 7, at++) {
    value += (bytes[at] & 127) * 2 ** shift;
    if (bytes[at] < 128) return [value, at + 1];
  }
}
function numberOf(value) {
  const out = [];
  for (; value > 127; value = Math.floor(value / 128)) out.push(value % 128 + 128);
  return [...out, value];
}
// The module with no more than so many pages behind those that it begins with: its section of memory, the fifth, says so.
function within(more) {
  for (let at = 8; at < bytes.length;) {
    const [size, begin] = numberAt(at + 1);
    if (bytes[at] === 5) {
      const [pages] = numberAt(begin + 2), section = [1, 1, ...numberOf(pages), ...numberOf(pages + more)];
      const written = Buffer.from([5, ...numberOf(section.length), ...section]);
      return new WebAssembly.Module(Buffer.concat([bytes.subarray(0, at), written, bytes.subarray(begin + size)]));
    }
    at = begin + size;
  }
  throw new Error('the module has no memory');
}
function ran({ words, files, pages, room = Infinity }) {
  const parts = [];
  let left = room;
  const find = name => Object.hasOwn(files, name) ? new Uint8Array(bytesOf(files[name])) : null;
  const write = (place, part) => {
    const taken = Math.min(left, part.length);
    if (place !== 1) return part.length;
    if (taken === 0 && part.length > 0) return -28;   // no space left
    parts.push(Buffer.from(part.subarray(0, taken)));
    left -= taken;
    return taken;
  };
  try {
    const done = machine({ words, find, write }).run(pages === undefined ? whole : within(pages));
    return { out: Buffer.concat(parts).toString('base64'), status: done.status, pages: done.memory / PAGE };
  } catch (error) {
    return { out: Buffer.concat(parts).toString('base64'), status: String(error), pages: null };
  }
}
for await (const line of createInterface({ input: process.stdin })) console.log(JSON.stringify(ran(JSON.parse(line))));
