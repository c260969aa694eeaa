// Runs a program for wasm32-wasi in the present folder: node wasi.mjs PROGRAM
import fs from 'node:fs';
import { WASI } from 'node:wasi';
const wasi = new WASI({ version: 'preview1', args: process.argv.slice(2), preopens: { '.': '.' }, returnOnExit: true });
const made = new WebAssembly.Instance(new WebAssembly.Module(fs.readFileSync(process.argv[2])), wasi.getImportObject());
process.exitCode = wasi.start(made);
