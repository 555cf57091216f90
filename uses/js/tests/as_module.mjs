// Run by bundles.test.mjs: runs a module, whose path is the word, as a browser would that has it from a server: `fetch` finds what lies in
// the module's folder. Writes what `told` promises.
import fs from 'node:fs/promises';
import path from 'node:path';
import vm from 'node:vm';

const file = process.argv[2], SERVER = 'https://localhost/';

async function fetch(url) {
    const bytes = await fs.readFile(path.join(path.dirname(file), path.basename(url.pathname)));
    return new Response(bytes, { headers: { 'content-type': 'application/wasm' } });
}

const context = vm.createContext({ TextDecoder, TextEncoder, URL, fetch });
const module = new vm.SourceTextModule(await fs.readFile(file, 'utf8'), { context, initializeImportMeta: (meta) => { meta.url = SERVER + path.basename(file); } });
await module.link(() => { throw new Error('a bundle imports nothing'); });
await module.evaluate();
console.log(await context.told);
