// @ts-check
"use strict";

/**
 * Runs the program once, in a page or in node: words, files and what is typed go in, the status and what is said come out.
 *
 * @typedef {{ words: string[], files: Record<string, Uint8Array>, typed: Uint8Array, said?: (stream: number, bytes: Uint8Array) => boolean,
 *   asked?: (to: Uint8Array) => number }} Request  `said` takes what is said at once, and answers whether that could be done; `asked` puts more of
 *   what is typed into the bytes that it is given, and answers how many, 0 at the end.
 * @typedef {{ status: number, said: Uint8Array, told: Uint8Array, files: Record<string, Uint8Array> }} Answer  `said` stands on standard output,
 *   `told` among the errors.
 * @typedef {{ memory: WebAssembly.Memory, room: (bytes: number) => number, word: (from: number, length: number) => number,
 *   file: (name: number, length: number, from: number, bytes: number) => number, run: () => number }} Program
 */
(function () {
  const FAILED = 5; // what a write answers that is refused: an error of input or output

  /** @param {Uint8Array[]} parts */
  function joined(parts) {
    const whole = new Uint8Array(parts.reduce((length, part) => length + part.length, 0));
    parts.reduce((at, part) => (whole.set(part, at), at + part.length), 0);
    return whole;
  }

  /** @param {Program} program @param {Request} request */
  function fill(program, request) {
    const encoder = new TextEncoder();
    /** @param {number} made */
    const there = (made) => {
      if (!made) throw new RangeError("no memory for the program's words and files");
      return made >>> 0;
    };
    /** @param {Uint8Array} bytes @returns {[number, number]} */
    const put = (bytes) => {
      const at = there(program.room(bytes.length));
      new Uint8Array(program.memory.buffer, at, bytes.length).set(bytes);
      return [at, bytes.length];
    };
    for (const word of ["ceptre", ...request.words]) there(program.word(...put(encoder.encode(word))));
    for (const [name, bytes] of Object.entries(request.files)) there(program.file(...put(encoder.encode(name)), ...put(bytes)));
  }

  /**
   * Throws where the program traps, or the stack is too small.
   * @param {WebAssembly.Module} compiled @param {Request} request @returns {Answer}
   */
  function run(compiled, request) {
    /** @type {Uint8Array[][]} */
    const parts = [[], [], []];
    let read = 0;
    /** @type {Program} */
    let program;
    /** @param {number} from @param {number} length */
    const bytesAt = (from, length) => new Uint8Array(program.memory.buffer, from >>> 0, length >>> 0);
    const page = {
      /** @param {number} stream @param {number} from @param {number} length */
      said(stream, from, length) {
        if (request.said) return request.said(stream, bytesAt(from, length)) ? 0 : FAILED;
        parts[stream].push(bytesAt(from, length).slice());
        return 0;
      },
      /** @param {number} to @param {number} most */
      asked(to, most) {
        const some = request.typed.subarray(read, read + (most >>> 0));
        if (!some.length && request.asked) return request.asked(bytesAt(to, most));
        bytesAt(to, most).set(some);
        read += some.length;
        return some.length;
      },
    };
    program = /** @type {any} */ (new WebAssembly.Instance(compiled, { page }).exports);
    fill(program, request);
    const status = program.run();
    return { status, said: joined(parts[1]), told: joined(parts[2]), files: request.files };
  }

  /** @type {any} */ (globalThis).ceptre = { run };
  if (typeof module !== "undefined" && module.exports) module.exports = { run };
})();
