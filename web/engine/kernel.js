// What the program asks of a machine, answered here: its words, files that it may read, and a place to write to. The page's
// worker and tools/slice.mjs both run the module over it. No proof covers this file.
'use strict';

// Numbers of faults, as Linux has them.
const FAULT = { missing: 2, badFile: 9, denied: 13, badValue: 22 };

// `find(name)` gives the bytes of a file, or null. `write(place, bytes)`, place 1 for the answer and 2 for faults, gives how
// many bytes it took, or minus the number of a fault; where it throws, the program is broken off.
function machine({ words, find, write }) {
  const encoder = new TextEncoder(), decoder = new TextDecoder();
  const args = ['slice', ...words].map(word => encoder.encode(word));
  const open = new Map();
  let memory = null, errno = 0, next = 3;

  const fails = (code, value) => { errno = code; return value; };
  const bytesAt = (at, count) => new Uint8Array(memory.buffer, Number(at), Number(count));
  const textAt = at => {
    const from = new Uint8Array(memory.buffer, Number(at));
    return decoder.decode(from.slice(0, from.indexOf(0)));
  };
  // Fills a buffer; where it is too small, -2 and what fits.
  const fill = (bytes, at, room) => {
    bytesAt(at, Math.min(Number(room), bytes.length)).set(bytes.subarray(0, Number(room)));
    return bytes.length > Number(room) ? -2n : BigInt(bytes.length);
  };

  const env = {
    rattle_arg: (index, at, room) => index < BigInt(args.length) ? fill(args[Number(index)], at, room) : -1n,
    rattle_env: () => -1n,
    rattle_env_at: () => -1n,
    rattle_errno: () => errno,
    rattle_set_errno: code => { errno = code; },
    __sysv_signal: () => 0n,
    open: (path, flags) => {
      if ((flags & 3) !== 0) return fails(FAULT.denied, -1);
      const bytes = find(textAt(path));
      if (bytes === null) return fails(FAULT.missing, -1);
      open.set(next, { bytes, at: 0 });
      return next++;
    },
    close: place => open.delete(place) ? 0 : fails(FAULT.badFile, -1),
    lseek: (place, offset, whence) => {
      const file = open.get(place);
      if (!file) return fails(FAULT.badFile, -1n);
      const to = Number(offset) + [0, file.at, file.bytes.length][whence];
      if (!(to >= 0)) return fails(FAULT.badValue, -1n);
      file.at = to;
      return BigInt(to);
    },
    read: (place, at, room) => {
      const file = open.get(place);
      if (!file) return fails(FAULT.badFile, -1n);
      const part = file.bytes.subarray(file.at, file.at + Number(room));
      bytesAt(at, part.length).set(part);
      file.at += part.length;
      return BigInt(part.length);
    },
    write: (place, at, count) => {
      if (place !== 1 && place !== 2) return fails(FAULT.badFile, -1n);
      const taken = write(place, bytesAt(at, count).slice());
      return taken < 0 ? fails(-taken, -1n) : BigInt(taken);
    },
  };
  env.__write = env.write;   // glibc's other name for it
  return {
    // Runs the program to its end: its status, and how large its memory grew.
    run(module) {
      const instance = new WebAssembly.Instance(module, { env });
      memory = instance.exports.memory;
      const status = instance.exports.main(0, 0n);
      return { status, memory: memory.buffer.byteLength };
    },
  };
}
