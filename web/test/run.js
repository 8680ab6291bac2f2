// web/test/run.js: every test of the viewer. `node web/test/run.js library` has those without a browser only, `page` the others, `bends` sees that the page's tests tell a
// page that is wrong. A line for each part; the last is 'web: N checks passed'.

import { readFileSync, writeFileSync } from 'node:fs';
import { path, tally } from './common.js';

const parts = process.argv.slice(2), wanted = (name) => parts.length === 0 || parts.includes(name), began = Date.now();
const since = (start) => `${((Date.now() - start) / 1000).toFixed(1)} s`;

if (wanted('library')) {
    const start = Date.now(), { vectors } = await import('./vectors.js'), { damaged, filtered, streams } = await import('./damaged.js');
    const { cases, made } = vectors();
    console.log(`web: ${made} recorded calls of ${cases} cases agree (${since(start)})`);
    const again = Date.now(), told = await damaged(10000);
    await streams();
    console.log(`web: the filter: ${await filtered()}`);
    console.log(`web: 10000 damaged frames, number: times ${told} (${since(again)})`);
}
const made = path('web/xurbalenz.html');
if (wanted('page')) {
    const start = Date.now(), page = await import('./page.js');
    let ready = 0;
    for (const part of ['demonstration', 'outlines', 'twoRecordings', 'badFiles', 'reading']) ready = await page.withPage(made, page[part]);
    console.log(`web: the page from its file: the demonstration forth and back, outlines, two recordings, files that are none, contrast and Tab; first picture after ${ready} ms (${since(start)})`);
}
// Pages that are wrong, and which test must tell it.
const BENDS = [
    ['a tile outlined at another place', 'const left = x * this.tile', 'const left = (x + 1) * this.tile', 'outlines'],
    ['the picture of the call before', 'await this.again(this.at + 1, to, back);', 'await this.again(this.at + 1, to - 1, back);', 'demonstration'],
    ['a refused call shown as done', "return call.number === 0 ? library.word(0)", "return call.number !== 99 ? library.word(0)", 'demonstration'],
];
if (wanted('bends')) {
    const start = Date.now(), page = await import('./page.js'), { createHash } = await import('node:crypto'), text = readFileSync(made, 'utf8');
    for (const [what, from, to, test] of BENDS) {
        if (text.split(from).length !== 2) throw new Error(`${what}: what is to be bent does not stand there once`);
        const [, script] = text.replace(from, to).match(/<script type="module">([^]*?)<\/script>/), sum = createHash('sha256').update(script).digest('base64');
        writeFileSync(path('target/web/bent.html'), text.replace(from, to).replace(/script-src 'sha256-[^']*'/, `script-src 'sha256-${sum}'`));
        const told = await page.withPage(path('target/web/bent.html'), page[test]).then(() => null, (fault) => fault);
        if (told === null) throw new Error(`${what}: no test tells it`);
        console.log(`web: ${what}: told (${told.message.slice(0, 90)})`);
    }
    console.log(`web: ${BENDS.length} wrong pages are told (${since(start)})`);
}
console.log(`web: ${tally()} checks passed in ${since(began)}`);
