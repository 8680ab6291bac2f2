// node web/test/expect.js SHOW: what `show` says of each call of the demonstration, and the hash of the picture after it, on both glasses; the page must say and show the
// same (web/test/demo.txt). SHOW is a command that takes show's words, as `./xurbalenz show` does.

import { execFileSync } from 'node:child_process';
import { mkdtempSync, readFileSync, rmSync, writeFileSync } from 'node:fs';
import { tmpdir } from 'node:os';
import { join } from 'node:path';
import { hash } from './common.js';
import { pixelsOf } from './png.js';

const [program, ...words] = process.argv.slice(2), demo = readFileSync(new URL('../../demo/control-room.rfx', import.meta.url)), room = mkdtempSync(join(tmpdir(), 'expect-'));
// Where the calls end: a block alone, or from a begin block to its end block.
const ends = [];
for (let at = 0, inside = false; at < demo.length;) {
    const type = demo.readUInt16LE(at);
    at += demo.readUInt32LE(at + 2);
    if (type === 0xccc4) inside = true;
    if (type === 0xccc5) inside = false;
    if (!inside) ends.push(at);
}
const shown = (end, glass) => {
    const [stream, png] = ['a.rfx', 'a.png'].map((name) => join(room, name));
    writeFileSync(stream, demo.subarray(0, end));
    rmSync(png, { force: true });
    let said = '';
    try {
        said = execFileSync(program, [...words, stream, '-o', png, '-g', String(glass)], { encoding: 'utf8', stdio: ['ignore', 'pipe', 'pipe'] });
    } catch (fault) { // a refused call is not 0
        said = `${fault.stdout}${fault.stderr}`;
    }
    try {
        return { said, hash: hash(pixelsOf(readFileSync(png)).data) };
    } catch {
        return { said, hash: '-' };
    }
};
const all = execFileSync('sh', ['-c', '"$@" 2>&1 || true', 'sh', program, ...words, new URL('../../demo/control-room.rfx', import.meta.url).pathname, '-o', join(room, 'all.png')], { encoding: 'utf8' });
const verdicts = all.split('\n').filter((line) => /^(header|frame) \d+: /.test(line)).map((line) => line.replace(/ \d+: /, ' '));
console.log('# kind, what it came to, tiles; hash of the pixels after the call on a glass of 32 bits and of 16, - where there is no picture yet');
ends.forEach((end, i) => {
    const [, kind, said, tiles = '0'] = verdicts[i].match(/^(\w+) ([^,]*)(?:, (\d+) tiles?)?$/);
    console.log([kind, said.replaceAll(' ', '_'), tiles, shown(end, 32).hash, shown(end, 16).hash].join(' '));
});
rmSync(room, { recursive: true });
