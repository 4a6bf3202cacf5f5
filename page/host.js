// One run of the program.

/**
 * Runs the program in a fresh instance of the module, so that nothing of an earlier run is left.
 * @param {WebAssembly.Module} module
 * @param {string[]} words those of the command line
 * @param {[string, Uint8Array][]} files each with its name
 * @param {number} [limit] the most bytes of memory
 */
export function runProgram(module, words, files, limit) {
  const program = /** @type {any} */ (new WebAssembly.Instance(module, {}).exports);
  if (limit) program.set_limit(BigInt(limit));
  if (!given(program, words, files)) {
    const out = new TextEncoder().encode('out of memory\n');
    return { status: 7, out, fault: undefined, memory: program.memory.buffer.byteLength };
  }
  let status, fault;
  try {
    status = program.run();
  } catch (trap) {
    status = program.status_now();
    if (status < 0) [status, fault] = ['fault', String(trap)];
  }
  const out = new Uint8Array(program.memory.buffer, Number(program.output_at()), Number(program.output_size())).slice();
  return { status, out, fault, memory: program.memory.buffer.byteLength };
}

/**
 * Gives the program its words and files; word 0 is its own name.
 * @param {any} program the exports @param {string[]} words @param {[string, Uint8Array][]} files
 * @returns {boolean} whether the memory was enough for them
 */
function given(program, words, files) {
  for (const word of ['course-match', ...words]) {
    const at = put(program, new TextEncoder().encode(word));
    if (!at) return false;
    if (!program.add_word(at)) throw new Error('too many words');
  }
  for (const [name, bytes] of files) {
    const [named, data] = [put(program, new TextEncoder().encode(name)), put(program, bytes)];
    if (!named || !data) return false;
    if (!program.add_file(named, data, BigInt(bytes.length))) throw new Error('too many files');
  }
  return true;
}

/**
 * Puts bytes into the program's memory, with a zero behind them; answers where, or 0 where there is no room.
 * @param {any} program @param {Uint8Array} bytes
 */
function put(program, bytes) {
  const at = program.take(BigInt(bytes.length + 1));
  if (!at) return at;
  const to = new Uint8Array(program.memory.buffer, Number(at), bytes.length + 1);
  to.set(bytes);
  to[bytes.length] = 0;
  return at;
}
