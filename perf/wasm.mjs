// Runs a program for WebAssembly under node: wasm.mjs PROGRAM WORD...
import fs from "node:fs";

const words = process.argv.slice(2);
let memory;
const put = (at, n) => fs.writeSync(1, new Uint8Array(memory.buffer, at, n));
const program = new WebAssembly.Module(fs.readFileSync(words[0]));
const { exports } = new WebAssembly.Instance(program, { env: { put } });
memory = exports.memory;

// The words of main, in a page of their own behind all that the program has.
const page = memory.grow(1) * 65536;
const view = new DataView(memory.buffer);
let at = page + 4 * (words.length + 1);
words.forEach((word, i) => {
    view.setUint32(page + 4 * i, at, true);
    for (const byte of Buffer.from(word + "\0")) view.setUint8(at++, byte);
});
process.exitCode = exports.__main_argc_argv ? exports.__main_argc_argv(words.length, page) : exports.__main_void();
