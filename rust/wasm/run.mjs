// Runs scripts by the library as WebAssembly: node run.mjs MODULE PIPERUN SCRIPT..
//
// What the module prints for each script has to be what the program PIPERUN of this machine prints on standard output. The last line is
// 'N passed, M failed', and the status is 1 where one failed.
import { execFileSync } from 'node:child_process';
import { readFileSync } from 'node:fs';

const [, , file, piperun, ...scripts] = process.argv;
const { instance } = await WebAssembly.instantiate(readFileSync(file));
const { memory, resize, run, passes_bytes } = instance.exports;

function printed(script) {
    const place = resize(script.length);
    new Uint8Array(memory.buffer, place, script.length).set(script);
    const length = run();
    return Buffer.from(memory.buffer, resize(length), length);
}

function printedHere(script) {
    try {
        return execFileSync(piperun, { input: script, stdio: 'pipe', maxBuffer: 2 ** 28 });
    } catch (ended) {
        return ended.stdout;
    }
}

let failed = 0;
function check(name, holds) {
    if (!holds) {
        failed += 1;
        console.log(`FAILED: ${name}`);
    }
}

check('a pipe of a shared kernel', passes_bytes());
for (const name of scripts) {
    const script = readFileSync(name);
    check(name, printed(script).equals(printedHere(script)));
}
console.log(`${scripts.length + 1 - failed} passed, ${failed} failed`);
process.exit(failed === 0 ? 0 : 1);
