#!/usr/bin/env node
// Runs the program on the words that it is given, as ./slice does, by the WebAssembly module of docs/slice.html: node alone
// is wanted. SLICE_PAGE names another page, or a module's own file.
import { readFileSync, writeSync } from 'node:fs';
import { constants } from 'node:os';
import { isMainThread, Worker, workerData } from 'node:worker_threads';
import { PAGE, machine, moduleIn } from '../web/engine/node.mjs';

// As deep as the program may go: a thread of its own gets the room, the first one hasn't.
const STACK = 64;

function find(name) {
  try {
    return new Uint8Array(readFileSync(name));
  } catch {
    return null;
  }
}
// How many bytes the system took, or minus the number of its fault.
function write(place, bytes) {
  for (;;) {
    try {
      return writeSync(place, bytes);
    } catch (error) {
      if (error.code !== 'EAGAIN') return -(constants.errno[error.code] || constants.errno.EIO);
    }
  }
}

if (isMainThread) {
  const thread = new Worker(new URL(import.meta.url), { workerData: process.argv.slice(2), resourceLimits: { stackSizeMb: STACK } });
  thread.on('error', error => {
    console.error(`slice: the program broke off: ${error}`);
    process.exitCode = 70;
  });
  thread.on('exit', status => { process.exitCode ||= status; });
} else {
  const module = new WebAssembly.Module(moduleIn(process.env.SLICE_PAGE || PAGE).bytes);
  process.exit(machine({ words: workerData, find, write }).run(module).status);
}
