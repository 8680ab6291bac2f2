// The page itself, opened from its file in a headless Chromium: the demonstration call by call beside what `show` says, forth and back; outlines; two recordings; files that
// are none; and that nothing is asked of any network.

import { mkdirSync, readFileSync, writeFileSync } from 'node:fs';
import { Chromium } from './chromium.js';
import { drawing, facts, frame, headers, holds, joined, library, path, same, short } from './common.js';

const room = path('target/web/');
mkdirSync(room, { recursive: true });
const put = (name, bytes) => {
    writeFileSync(room + name, bytes);
    return room + name;
};
// In the page: the hash of the canvas' pixels (FNV-1a, as in common.js), once the page has come to rest on a call.
const HASH = `(letter) => {
    const { view } = page[letter], { canvas, wide, high } = view;
    if (wide === 0) return '-';
    const bytes = canvas.getContext('2d').getImageData(0, 0, wide, high).data;
    let h = 0xcbf29ce4, l = 0x84222325;
    for (let i = 0; i < bytes.length; i++) { const m = (l ^ bytes[i]) >>> 0; l = Math.imul(m, 435) >>> 0; h = (Math.imul(h, 435) + (m << 8) + (m * 435 - l) / 4294967296) >>> 0; }
    return [h, l].map((half) => half.toString(16).padStart(8, '0')).join('');
}`;
const rest = (letter, at) => `page.${letter}.recording?.whole && page.${letter}.at === ${at} && page.${letter}.shown === ${at} && (page.two.on || !document.getElementById('tiles').checked
    || Number(page.${letter}.view.box.dataset.outlined) === ${at})`;
const lines = `[...document.querySelectorAll('#calls [role=option]')].map((line) => [...line.children].slice(0, 4).map((c) => c.textContent).concat(line.classList.contains('bad')))`;
const rects = (letter, kind) => `[...page.${letter}.view.svg.querySelectorAll('.${kind}')].map((r) => ['x', 'y', 'width', 'height'].map((n) => Number(r.getAttribute(n))))`;
const note = `document.getElementById('note').textContent`;

// The demonstration, as demo.txt has it: kind, verdict, tiles, and the hash of the pixels on a glass of 32 bits and of 16.
const asked = readFileSync(new URL('demo.txt', import.meta.url), 'utf8').split('\n').filter((line) => line && !line.startsWith('#')).map((line) => line.split(' '));

export async function demonstration(web) {
    for (const [bits, column] of [[32, 3], [16, 4]]) {
        if (bits === 16) {
            await web.value(`document.getElementById('bits').value = '16'; document.getElementById('bits').dispatchEvent(new Event('change'))`);
            await web.until(`page.a.recording.options.bits === 16 && ${rest('a', asked.length - 1)}`);
        }
        await web.value('document.activeElement.blur()');
        await web.key('Home');
        const found = [];
        for (let i = 0; i < asked.length; i++) {
            await web.until(rest('a', i));
            found.push(await web.value(`(${HASH})('a')`));
            await web.key('ArrowRight');
        }
        same(found, asked.map((call) => call[column]), `the pictures after each call, ${bits} bits`);
        for (let i = asked.length - 2; i >= 0; i--) {
            await web.key('ArrowLeft');
            await web.until(rest('a', i));
            same(await web.value(`(${HASH})('a')`), found[i], `the picture after call ${i + 1}, stepping back, ${bits} bits`);
        }
        await web.key('End');
        await web.until(rest('a', asked.length - 1));
    }
    const told = asked.map(([kind, said, tiles], i) => [String(i + 1), kind, said.replaceAll('_', ' '), kind === 'frame' && said === 'done' ? tiles : '–', said !== 'done']);
    same(await web.value(lines), told, 'the list of calls');
    const bad = asked.findIndex((call) => call[1] !== 'done');
    await web.key('p');
    await web.until(rest('a', bad));
    const detail = await web.value(`document.getElementById('detail').textContent`), number = Number(asked[bad][1].split('_')[1]);
    holds(detail.includes(asked[bad][1].replaceAll('_', ' ')) && detail.includes(facts.says[number]) && detail.includes('what it showed before'), `the sentence of the refused call: ${detail}`);
    await web.key('r');
    same((await web.value(lines)).map((line) => line[0]), [String(bad + 1)], 'refused only');
    await web.key('r');
}

// A recording in which the second frame has a few tiles, in places that are known: they are outlined, and the pixel under the pointer knows who drew it.
const [W, H] = [200, 150], first = drawing(W, H, 0), second = first.slice();
for (const [x, y] of [[70, 10], [199, 149]]) second.set([9, 250, 9], 3 * (y * W + x));
const TILES = [1, 11]; // of four columns: column 1 of row 0, and the last one, which the picture cuts
const SHORT = joined(headers(W, H), frame(W, H, first), short(W, H, first, second, TILES, 1));

export async function outlines(web) {
    await web.give('open-a', [put('short.rfx', SHORT)]);
    await web.until(`page.a.recording.name === 'short.rfx' && ${rest('a', 5)}`);
    same(await web.value(rects('a', 'listed')), [[64, 0, 64, 64], [192, 128, 8, 22]], 'the tiles outlined');
    const last = (x, y) => web.value(`page.pixel.tell(page.a, { x: ${x}, y: ${y} }).then(() => document.getElementById('pixel').textContent)`);
    holds((await last(70, 10)).includes('tile 1, 0') && (await last(70, 10)).endsWith('drawn by call 6'), `a pixel of the second frame: ${await last(70, 10)}`);
    holds((await last(10, 10)).endsWith('drawn by call 5'), `a pixel of the first frame: ${await last(10, 10)}`);
    await web.key('ArrowLeft');
    await web.until(rest('a', 4));
    same((await web.value(rects('a', 'listed'))).length, 12, 'the tiles of the full frame');
}

export async function twoRecordings(web) {
    const other = joined(headers(W, H), frame(W, H, first), frame(W, H, first, 1));
    await web.give('open-a', [put('short.rfx', SHORT)]);
    await web.until(`page.a.recording.name === 'short.rfx' && ${rest('a', 5)}`);
    await web.give('open-b', [put('other.rfx', other)]);
    await web.until(`page.two.on && ${rest('b', 5)} && page.two.lines.length > 0`);
    const told = await web.value(`[...document.querySelectorAll('#differ [role=option]')].map((line) => [...line.children].map((c) => c.textContent).join(' '))`);
    const readers = await Promise.all([SHORT, other].map(async (bytes) => {
        const reader = await library.reader(await web.value('page.a.recording.options.bits'));
        reader.give(bytes);
        while (reader.left > 0) {
            const got = reader.gather();
            if (got.kind === 1) reader.header(got.size);
            if (got.kind === 2) reader.frame(got.size);
        }
        return reader.words();
    }));
    const counts = new Map(); // by hand: words that differ, by tile
    readers[0].forEach((word, i) => {
        const name = `${Math.floor((i % W) / 64)} ${Math.floor(Math.floor(i / W) / 64)}`;
        if (word !== readers[1][i]) counts.set(name, (counts.get(name) ?? 0) + 1);
    });
    same(told, [...counts].map(([name, n]) => `${name} ${n}`), 'the lines of the tiles that differ');
    same(told.map((line) => line.split(' ').slice(0, 2).join(' ')), ['1 0', '3 2'], 'the tiles that differ');
    await web.value(`document.querySelector('#differ [role=option]').click()`);
    same(await web.value(rects('b', 'chosen')), [[64, 0, 64, 64]], 'a click leads to the tile');
    await web.key('ArrowLeft');
    await web.until(`${rest('a', 4)} && ${rest('b', 4)} && page.two.lines.length === 0`);
    await web.key('b');
    holds(await web.value(`document.getElementById('views').classList.contains('blink')`), 'blinking');
    await web.key('b');
    writeFileSync(`${room}two.png`, await web.picture());
    await web.value(`document.getElementById('close-b').click()`);
    holds(await web.value('!page.two.on && document.getElementById("view-b").hidden'), 'one recording again');
}

export async function badFiles(web) {
    await web.give('open-a', [put('short.rfx', SHORT)]);
    await web.until(`page.a.recording.name === 'short.rfx' && ${rest('a', 5)}`);
    const before = await web.value(`(${HASH})('a')`), whole = headers(W, H).length + frame(W, H, first).length;
    const long = new Uint8Array(20);
    long.set([0xc4, 0xcc, 0xff, 0xff, 0xff, 0x7f]);
    const broken = SHORT.slice();
    broken[whole + 200] ^= 0x55;
    // name, bytes, what is said of it, and whether its calls are shown
    for (const [name, bytes, sentence, calls] of [
        ['empty.rfx', new Uint8Array(0), 'empty.rfx is empty: there is nothing to show.', 0],
        ['letter.txt', Buffer.from('Dear Sir, the pump on the left is the one that leaks.'), 'letter.txt is no RemoteFX recording: what stands at its start is no block of one (refused 3 kind', 0],
        ['photo.png', await web.picture(), 'photo.png is no RemoteFX recording', 0],
        ['surface.bin', Uint8Array.from([1, 0, 0, 0, 0, 0, 64, 0, 64, 0, 32, 0, 0, 9, 64, 0, 64, 0, 8, 0, 0, 0, 1, 2, 3, 4]), 'surface.bin is no RemoteFX recording', 0],
        ['stub.rfx', SHORT.slice(0, 5), 'stub.rfx is no RemoteFX recording, or ends inside its first block: 5 bytes from byte 0 on', 0],
        ['cut.rfx', SHORT.slice(0, whole - 7), 'cut.rfx ends inside a block or frame', 4],
        ['long.rfx', joined(SHORT.slice(0, whole), long), `long.rfx has a block or frame at byte ${whole.toLocaleString('en-GB')} that is longer than`, 5],
        ['other.rfx', joined(SHORT.slice(0, whole), Buffer.from('H.264 comes here')), `other.rfx is no RemoteFX recording from byte ${whole.toLocaleString('en-GB')} on`, 5],
        ['damaged.rfx', broken, '', 6],
    ]) {
        await web.value(`page.say('')`);
        await web.give('open-a', [put(name, bytes)]);
        if (sentence) await web.until(`${note} !== ''`);
        if (calls > 0) await web.until(`page.a.recording.name === '${name}' && ${rest('a', calls - 1)}`);
        const said = await web.value(note);
        holds(said.startsWith(sentence), `${name}: ${said}`);
        if (calls === 0) same([await web.value('page.a.recording.name'), await web.value(`(${HASH})('a')`)], ['short.rfx', before], `${name}: what was drawn stays`);
        if (calls === 0) continue;
        await web.give('open-a', [room + 'short.rfx']);
        await web.until(`page.a.recording.name === 'short.rfx' && ${rest('a', 5)}`);
    }
}

// Every text has a contrast of 4.5 and more with what it stands on, light and dark; and all that is asked can be reached by the Tab key, with a focus that is seen.
export async function reading(web) {
    const pairs = [['text', 'ground'], ['text', 'panel'], ['text', 'chosen'], ['soft', 'ground'], ['soft', 'panel'], ['on-accent', 'accent'], ['bad', 'bad-ground'], ['bad', 'chosen'],
        ['bad', 'ground'], ['good', 'panel'], ['good', 'chosen'], ['good', 'ground']];
    for (const dark of [false, true]) {
        await web.look({ dark });
        const colours = await web.value(`Object.fromEntries(${JSON.stringify([...new Set(pairs.flat())])}.map((name) => [name, getComputedStyle(document.documentElement).getPropertyValue('--' + name).trim()]))`);
        const light = (hex) => [1, 2, 3].map((k) => parseInt(hex.length === 4 ? hex[k] + hex[k] : hex.slice(2 * k - 1, 2 * k + 1), 16) / 255)
            .map((c) => (c <= 0.03928 ? c / 12.92 : ((c + 0.055) / 1.055) ** 2.4)).reduce((sum, c, k) => sum + c * [0.2126, 0.7152, 0.0722][k], 0);
        for (const [a, b] of pairs) {
            const [low, high] = [colours[a], colours[b]].map(light).sort((x, y) => x - y);
            holds((high + 0.05) / (low + 0.05) >= 4.5, `${a} on ${b}, ${dark ? 'dark' : 'light'}: ${((high + 0.05) / (low + 0.05)).toFixed(2)}`);
        }
    }
    await web.look();
    const reached = [];
    await web.value('document.activeElement.blur()');
    for (let i = 0; i < 26; i++) {
        await web.key('Tab');
        const [name, seen] = await web.value(`[document.activeElement.id || document.activeElement.title || document.activeElement.className || document.activeElement.type, getComputedStyle(document.activeElement).outlineStyle]`);
        if (!name) continue; // between the last element and the first
        holds(seen !== 'none', `the focus of ${name} is seen`);
        reached.push(name);
    }
    for (const name of ['open-a', 'open-b', 'bits', 'save-png', 'save-csv', 'help', 'port', 'Play', 'range', 'in', 'out', 'fit', 'tiles', 'speed', 'refused', 'calls']) {
        holds(reached.includes(name), `${name} is reached by Tab: ${reached}`);
    }
}

export async function withPage(file, act) {
    const web = await Chromium.start(process.env.CHROMIUM ?? 'chromium');
    try {
        await web.look();
        await web.open(`file://${file}`);
        const ready = Number(await web.value('document.body.dataset.ready'));
        await act(web);
        same(web.faults, [], 'faults that the browser was told');
        same(web.requests.filter((url) => url !== `file://${file}` && !url.startsWith('data:') && !url.startsWith('blob:')), [], 'requests');
        return ready;
    } finally {
        await web.end();
    }
}
