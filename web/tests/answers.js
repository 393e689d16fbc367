// @ts-check
// Runs the program of a module as often as it is asked. A request is a line of JSON with the words, the lengths of the files and of what is
// typed, and then the bytes of these; what came of it is a line of JSON with the status and the lengths of what was said, and then these bytes.
// As in tools/ceptre.mjs the program runs in a worker, whose stack may be larger.
//
// usage: node answers.js CEPTRE.WASM
"use strict";
const { readFileSync } = require("node:fs");
const { Worker, isMainThread } = require("node:worker_threads");
const { run } = require("../loader.js");
const { read, write } = require("../streams.js");

// What was read and not yet used.
const some = Buffer.alloc(1 << 20);
let begin = 0;
let end = 0;

/** Reads more, where all was used, and answers whether there is more. */
function more() {
  if (begin === end) {
    begin = 0;
    end = read(some);
  }
  return begin < end;
}

/** The next line, or nothing at the end. */
function line() {
  let text = "";
  while (more()) {
    const found = some.subarray(0, end).indexOf(10, begin);
    text += some.toString("latin1", begin, found < 0 ? end : found);
    begin = found < 0 ? end : found + 1;
    if (found >= 0) break;
  }
  return text;
}

/** @param {number} length */
function bytes(length) {
  const made = Buffer.alloc(length);
  for (let at = 0; at < length && more(); ) {
    const copied = some.copy(made, at, begin, Math.min(end, begin + length - at));
    at += copied;
    begin += copied;
  }
  return made;
}

/**
 * @param {WebAssembly.Module} program
 * @param {{ words: string[], files: [string, number][], typed: number }} request
 */
function answer(program, request) {
  const files = Object.fromEntries(request.files.map(([name, length]) => [name, bytes(length)]));
  const typed = bytes(request.typed);
  try {
    return run(program, { words: request.words, files, typed });
  } catch (error) {
    return { status: -1, said: new Uint8Array(), told: Buffer.from(String(error)) };
  }
}

if (isMainThread) {
  new Worker(__filename, { argv: process.argv.slice(2), resourceLimits: { stackSizeMb: 64 } });
} else {
  const program = new WebAssembly.Module(readFileSync(process.argv[2]));
  for (let request; (request = line()); ) {
    const { status, said, told } = answer(program, JSON.parse(request));
    write(1, Buffer.from(JSON.stringify({ status, said: said.length, told: told.length }) + "\n"));
    write(1, said);
    write(1, told);
  }
}
