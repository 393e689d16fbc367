#!/usr/bin/env node
// Runs ceptre where node is and no kit was: node tools/ceptre.mjs play WORLD <TYPED
//
// Words, streams and statuses are those of the program. It is not the proved build, but the same sources by another back end: ceptre.wasm, as
// .ci/wasm makes it. It stands in web/ beside tools/, or in out/ of a checkout.
import { closeSync, existsSync, openSync, readFileSync, readSync, statSync } from "node:fs";
import { createRequire } from "node:module";
import { fileURLToPath } from "node:url";
import { Worker, isMainThread } from "node:worker_threads";

const { run } = createRequire(import.meta.url)("../web/loader.js");
const { read, write } = createRequire(import.meta.url)("../web/streams.js");

// No file of more bytes is accepted, so no more is read.
const MOST = (1 << 26) + 1;

// What cannot be run ends with a status that the program has not.
const UNAVAILABLE = 69;

/** @param {string} line */
function say(line) {
  write(2, Buffer.from(`ceptre: ${line}\n`));
}

/** The bytes of a file, if it can be read. @param {string} name */
function content(name) {
  const size = statSync(name).size;
  const bytes = Buffer.alloc(Math.min(MOST, size || MOST));
  const file = openSync(name, "r");
  let length = 0;
  try {
    for (let more; length < bytes.length && (more = readSync(file, bytes, length, bytes.length - length, null)); ) length += more;
  } finally {
    closeSync(file);
  }
  return bytes.subarray(0, length);
}

/** The files that the words name, for a program that has no others. @param {string[]} words */
function filesOf(words) {
  /** @type {Record<string, Uint8Array>} */
  const files = {};
  for (const name of words.slice(1, 3)) {
    try {
      files[name] = content(name);
    } catch {
      // The program says that it cannot be read, if it is to be read at all.
    }
  }
  return files;
}

/** The status of the program with these words. @param {string[]} words */
function status(words) {
  const place = ["../web/ceptre.wasm", "../out/ceptre.wasm"].map((it) => fileURLToPath(new URL(it, import.meta.url))).find(existsSync);
  if (!place) {
    say("there is no ceptre.wasm: .ci/wasm out makes it in a checkout");
    return UNAVAILABLE;
  }
  /** @param {number} stream @param {Uint8Array} bytes */
  const said = (stream, bytes) => {
    try {
      write(stream, bytes);
      return true;
    } catch {
      return false;
    }
  };
  try {
    const program = new WebAssembly.Module(readFileSync(place));
    return run(program, { words, files: filesOf(words), typed: new Uint8Array(), said, asked: read }).status;
  } catch (error) {
    say(`the program broke off: ${error}`);
    return UNAVAILABLE;
  }
}

if (isMainThread) {
  // A worker has as much of a stack as it asks for, which deep derivations need.
  const worker = new Worker(fileURLToPath(import.meta.url), { argv: process.argv.slice(2), resourceLimits: { stackSizeMb: 64 } });
  worker.on("exit", (code) => process.exit(code));
} else {
  process.exit(status(process.argv.slice(2)));
}
