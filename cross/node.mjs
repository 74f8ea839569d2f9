// node --no-warnings cross/node.mjs spot_table.wasm PROGRAM.wasm [WORDS]: runs a C program that was compiled for WASI without the library; its calls go to spot_table.wasm, which has
// a memory of its own. A call's slices are copied there, behind each other from __heap_base on, and those that it may write are copied back. Between them lie guards.
// With PAINT=327680 in the environment, the bytes of the stack, which lies at the front of the memory, it is painted before each call, and at the end each call's deepest use is printed to
// standard error.
import { readFileSync } from "node:fs";
import { WASI } from "node:wasi";

// The arguments of each call: a slice that is read (r) or written (w), with the bytes of an element; a number (n); a single i32 that is written (p).
const CALLS = {
    spot_format: "w1",
    spot_count: "r1",
    spot_check: "r1",
    spot_report: "r1 n n n w1 w1",
    spot_report_many: "r1 r12 w4 w1 w1",
    spot_top: "r1 n n n w1 w1",
    spot_top_within: "r1 n n n n w1 w1 p",
    spot_add: "w1 w1 n n n",
    spot_withdraw: "w1 w1 n n",
    spot_rebuild: "w1 w1",
    spot_apply: "w1 w1 r1",
    spot_write_message: "r1 w1",
    spot_read_message: "r1 w1",
    spot_press: "r1 w1",
    spot_tour_report: "r1 n n n w1 w1",
};
const GUARD = 16, BYTE = 0xa5, PAGE = 65536, PAINT = 0x5c, STACK = Number(process.env.PAINT ?? 0);

const [library, program, ...words] = process.argv.slice(2);
const module = new WebAssembly.Module(readFileSync(library));
const imports = WebAssembly.Module.imports(module);
if (imports.length) throw new Error(`${library} imports ${JSON.stringify(imports)}`);
const table = new WebAssembly.Instance(module, {}).exports;
const base = table.__heap_base.value;
const deepest = {};
let lent; // the program's memory

function bytes(memory) {
    return new Uint8Array(memory.buffer);
}

// Takes the arguments apart: what is handed on, and for each slice where it stands on both sides.
function place(kinds, args) {
    const handed = [], slices = [];
    let at = base, i = 0;
    for (const kind of kinds) {
        if (kind === "n") {
            handed.push(args[i++]);
            continue;
        }
        const from = args[i++], length = kind === "p" ? 1n : args[i++];
        const size = Number(length) * (kind === "p" ? 4 : Number(kind.slice(1)));
        slices.push({ from: from >>> 0, at, size, written: kind[0] !== "r" });
        handed.push(at, ...(kind === "p" ? [] : [length]));
        at = (at + size + GUARD + 15) & ~15;
    }
    if (at > table.memory.buffer.byteLength) table.memory.grow(Math.ceil((at - table.memory.buffer.byteLength) / PAGE));
    return { handed, slices };
}

function call(name, args) {
    const { handed, slices } = place(CALLS[name].split(" "), args);
    const here = bytes(lent), there = bytes(table.memory);
    for (const s of slices) {
        there.set(here.subarray(s.from, s.from + s.size), s.at);
        there.fill(BYTE, s.at + s.size, s.at + s.size + GUARD);
    }
    there.fill(PAINT, 0, STACK);
    const answer = table[name](...handed);
    const used = there.subarray(0, STACK).findIndex((b) => b !== PAINT);
    if (STACK) deepest[name] = Math.max(deepest[name] ?? 0, used < 0 ? 0 : STACK - used);
    for (const s of slices) {
        if (s.written) here.set(there.subarray(s.at, s.at + s.size), s.from);
        for (let g = 0; g < GUARD; g++) if (there[s.at + s.size + g] !== BYTE) throw new Error(`${name} wrote behind a slice`);
    }
    return answer;
}

const wasi = new WASI({ version: "preview1", args: [program, ...words], returnOnExit: true });
const env = Object.fromEntries(Object.keys(CALLS).map((name) => [name, (...args) => call(name, args)]));
const instance = new WebAssembly.Instance(new WebAssembly.Module(readFileSync(program)), { wasi_snapshot_preview1: wasi.wasiImport, env });
lent = instance.exports.memory;
process.exitCode = wasi.start(instance);
for (const [name, depth] of Object.entries(deepest)) console.error(`${name.slice(5)} ${depth}`);
