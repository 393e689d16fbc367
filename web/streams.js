// @ts-check
// Reads and writes in node, which leaves pipes so that calls may answer "try again".
"use strict";
const { readSync, writeSync } = require("node:fs");

const clock = new Int32Array(new SharedArrayBuffer(4));

/**
 * @param {() => number} call
 * @returns {number}
 */
function tried(call) {
  for (;;) {
    try {
      return call();
    } catch (error) {
      if (/** @type {NodeJS.ErrnoException} */ (error).code !== "EAGAIN") throw error;
      Atomics.wait(clock, 0, 0, 2);
    }
  }
}

/**
 * Puts what comes next on standard input into these bytes, and answers how many, 0 at the end.
 *
 * @param {Uint8Array} to
 */
const read = (to) => tried(() => readSync(0, to, 0, to.length, null));

/**
 * Writes all of these bytes to a stream.
 *
 * @param {number} stream
 * @param {Uint8Array} bytes
 */
function write(stream, bytes) {
  for (let rest = bytes; rest.length; ) rest = rest.subarray(tried(() => writeSync(stream, rest)));
}

module.exports = { read, write };
