// node web/test/measure.js: the figures of docs/landings/21-viewer.md. Sizes; speed in node; in Chromium the time to the first picture, back a call, and the memory
// that 1,000 frames of 800 x 480 take.

import { readFileSync, statSync, writeFileSync } from 'node:fs';
import { Chromium } from './chromium.js';
import { frame, headers, joined, library, path } from './common.js';

const say = (what, figure) => console.log(`${what.padEnd(64)}${figure}`), round = (n, digits = 0) => n.toFixed(digits);
const made = path('web/xurbalenz.html'), demo = readFileSync(path('demo/control-room.rfx'));
say('the library as WebAssembly, bytes', statSync(path('target/staticlib/wasm32/xurbalenz.wasm')).size);
say('the page, bytes', statSync(made).size);

const screens = []; // the demonstration's pictures
for (const bits of [32, 16]) {
    const reader = await library.reader(bits), frames = [];
    for (let at = 0; at < demo.length; at += library.piece) {
        reader.give(demo.subarray(at, at + library.piece));
        while (reader.left > 0) {
            const got = reader.gather();
            if (got.kind === 1) reader.header(got.size);
            if (got.kind !== 2 || reader.frame(got.size).number !== 0) continue;
            frames.push(reader.m.bytes(reader.store, got.size).slice());
            if (bits === 32) screens.push(reader.words().slice());
        }
    }
    const { width, height } = reader.size(), times = [];
    for (let i = 0; i < 60; i++) {
        const message = frames[i % frames.length];
        reader.put(message);
        const began = performance.now();
        reader.frame(message.length);
        times.push(performance.now() - began);
    }
    times.sort((a, b) => a - b);
    say(`the demonstration in node, ${bits} bits, MP/s (median frame; best)`, `${round((width * height) / times[30] / 1000, 1)}; ${round((width * height) / times[0] / 1000, 1)}`);
}

// Full frames of the demonstration's pictures on a larger screen, each a little further on, so that no two frames that follow each other are alike.
const [W, H, FRAMES] = [800, 480, 1000];
const kinds = Array.from({ length: 24 }, (_, t) => {
    const pixels = new Uint8Array(3 * W * H), screen = screens[t % 3];
    for (let y = 0, k = 0; y < H; y++) {
        for (let x = 0; x < W; x++) {
            const word = screen[((y + 2 * t) % 384) * 640 + ((x + 5 * t) % 640)];
            pixels[k++] = word >>> 16;
            pixels[k++] = word >>> 8;
            pixels[k++] = word;
        }
    }
    return frame(W, H, pixels, t);
});
const long = `${path('target/web/')}long-800x480.rfx`;
writeFileSync(long, joined(headers(W, H), ...Array.from({ length: FRAMES }, (_, i) => kinds[i % kinds.length])));
say('a recording of 1,000 full frames of 800 x 480, MB', round(statSync(long).size / 1e6, 1));

// Bytes of memory that only the page's process has.
async function own(web) {
    const { processInfo } = await web.browser('SystemInfo.getProcessInfo');
    const sizes = processInfo.filter((process) => process.type === 'renderer').map(({ id }) => readFileSync(`/proc/${id}/smaps_rollup`, 'utf8'));
    return Math.max(...sizes.map((text) => 1024 * [...text.matchAll(/^Private_\w+: +(\d+) kB/gm)].reduce((sum, [, kB]) => sum + Number(kB), 0)));
}

const web = await Chromium.start(process.env.CHROMIUM ?? 'chromium'), ready = [];
try {
    await web.look();
    for (let i = 0; i < 5; i++) {
        await web.open(`file://${made}`);
        ready.push(Number(await web.value('document.body.dataset.ready')));
    }
    say('ms from the start of the page to the first picture (best; median of 5)', `${Math.min(...ready)}; ${ready.sort((a, b) => a - b)[2]}`);
    await web.ask('HeapProfiler.collectGarbage');
    const before = await own(web), began = Date.now();
    await web.give('open-a', [long]);
    await web.until(`page.a.recording.name.startsWith('long') && page.a.recording.whole && page.a.shown === ${FRAMES + 3}`, 300000);
    say('s to read it once', round((Date.now() - began) / 1000, 1));
    const back = await web.value(`(async () => {
        const times = [], player = page.a;
        document.getElementById('tiles').checked = false;
        for (const from of [1003, 700, 500, 333, 120]) {
            await player.go(from);
            for (let i = 0; i < 40; i++) {
                const began = performance.now();
                await player.go(player.at - 1);
                times.push(performance.now() - began);
            }
        }
        times.sort((a, b) => a - b);
        return { median: times[times.length >> 1], most: times.at(-1), late: times.filter((t) => t > 50).length, all: times.length };
    })()`);
    say('ms back a call, picture drawn (median; most; over 50 of all)', `${round(back.median, 1)}; ${round(back.most, 1)}; ${back.late} of ${back.all}`);
    const copies = await web.value('({ bytes: page.a.recording.copies.bytes, count: page.a.recording.copies.list.length })');
    say('MB of copies of the glass, and how many there are', `${round(copies.bytes / 1e6, 1)}; ${copies.count}`);
    await web.ask('HeapProfiler.collectGarbage');
    say('MB that its process has more than with the demonstration', round((await own(web) - before) / 1e6, 1));
} finally {
    await web.end();
}
