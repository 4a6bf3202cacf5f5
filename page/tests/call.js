// Calls a module of the page by node: node call.js MODULE. Each line of standard input is one call as JSON: words, files in
// base64 with their names, and the most bytes of memory; each line of the output is its status, output and memory.

import { readFileSync } from 'node:fs';
import { createInterface } from 'node:readline';
import { runProgram } from '../host.js';

const module = new WebAssembly.Module(readFileSync(process.argv[2]));

for await (const line of createInterface({ input: process.stdin })) {
  const [words, files, limit] = JSON.parse(line);
  const given = files.map(([name, text]) => [name, new Uint8Array(Buffer.from(text, 'base64'))]);
  const { status, out, memory } = runProgram(module, words, given, limit);
  console.log(JSON.stringify([status, Buffer.from(out).toString('base64'), memory]));
}
