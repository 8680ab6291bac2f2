// Damaged frames through the library as WebAssembly: each call comes back with a number that has a word, a refusal leaves the glass as it was, and the same call
// again gives the same answer.

import { drawing, frame, headers, holds, joined, library, random, same, short } from './common.js';

const SIDE = [100, 70];

function damage(below, good, other) {
    let m = Buffer.from(good);
    for (let k = 1 + below(4); k > 0; k--) {
        const at = below(m.length + 1), way = below(8), spliced = (skip, ...between) => Buffer.concat([m.subarray(0, at), ...between, m.subarray(at + skip)]);
        if (way <= 2 && at < m.length) m[at] ^= 1 << below(8);
        else if (way === 3 && at < m.length) m[at] = [0, 1, 0x7f, 0x80, 0xff][below(5)];
        else if (way === 4) m = m.subarray(0, at);
        else if (way === 5) m = spliced(0, Buffer.from(Array.from({ length: 1 + below(9) }, () => below(256))));
        else if (way === 6) m = spliced(1 + below(9));
        else if (way === 7) m = spliced(m.length, other.subarray(Math.max(0, at - 2 + below(5))));
    }
    return m;
}

export async function damaged(times) {
    const [w, h] = SIDE, below = random(45), told = new Map();
    const pictures = Array.from({ length: 4 }, (_, t) => drawing(w, h, 30 * t));
    const good = pictures.flatMap((p, t) => [frame(w, h, p, t), short(w, h, pictures[(t + 3) % 4], p, [0, 1, 2, 3], t)]);
    for (const bits of [16, 32]) {
        const reader = await library.reader(bits), blocks = headers(w, h);
        for (const [from, to] of [[0, 12], [12, 22], [22, 34], [34, 47]]) {
            reader.put(blocks.slice(from, to));
            same(reader.header(to - from).number, 0, 'a header');
        }
        for (let i = 0; i < times / 2; i++) {
            const message = damage(below, good[below(good.length)], good[below(good.length)]), before = reader.words().slice();
            reader.put(message);
            const said = reader.frame(message.length), after = reader.words().slice();
            reader.words().set(before);
            const again = reader.frame(message.length);
            told.set(said.number, (told.get(said.number) ?? 0) + 1);
            if (said.number > 13 || again.number !== said.number || again.tiles !== said.tiles) throw new Error(`frame ${i}: ${said.number} and then ${again.number}`);
            const kept = Buffer.compare(Buffer.from(before.buffer), Buffer.from(after.buffer)) === 0;
            if (said.number !== 0 && !kept) throw new Error(`frame ${i}: refused ${said.number}, and the glass changed`);
            if (Buffer.compare(Buffer.from(reader.words().slice().buffer), Buffer.from(after.buffer)) !== 0) throw new Error(`frame ${i}: two pictures`);
        }
    }
    for (const number of [0, 1, 3, 4, 5, 9, 10, 11]) holds(told.has(number), `damage that is answered ${number}`);
    return [...told].sort(([a], [b]) => a - b).map(([n, k]) => `${n}: ${k}`).join(', ');
}

// Headers in another order, as some senders have them: refused as they came, put into order by the filter, where the library has one that takes a sender.
export async function filtered() {
    if (library.senders.length < 2) return 'the library has none that takes a sender';
    const [w, h] = SIDE, blocks = headers(w, h), [sync, versions, channels, context] = [[0, 12], [12, 22], [22, 34], [34, 47]].map(([from, to]) => blocks.slice(from, to));
    const messages = [sync, context, versions, channels], last = frame(w, h, drawing(w, h, 3)), told = [];
    for (const sender of [0, 1, 2]) {
        const reader = await library.reader(32, sender);
        const said = messages.map((block) => {
            reader.put(block);
            return reader.header(block.length).number;
        });
        reader.put(last);
        told.push([...said, reader.frame(last.length).number].filter((number) => number !== 0).length);
    }
    holds(told[0] > 0 && told[1] === 0 && told[2] === 0, `headers in another order: ${told} refused`);
    return `headers in another order are refused as they came, and put into order for ${library.senders.slice(1).join(' and ')}`;
}

// A stream of noise, of zeros and of blocks cut anywhere: the collector always comes back.
export async function streams() {
    const below = random(7), whole = joined(headers(64, 64), frame(64, 64, drawing(64, 64, 1)));
    for (let i = 0; i < 500; i++) {
        const reader = await library.reader(32), bytes = i % 5 === 0 ? Uint8Array.from({ length: below(3000) }, () => below(256)) : damage(below, whole, whole);
        reader.give(bytes);
        for (let taken = 0; reader.left > 0;) {
            const got = reader.gather();
            taken += got.taken;
            if (got.number !== 0) break;
            if (got.kind === 1) reader.header(got.size);
            if (got.kind === 2) reader.frame(got.size);
            if (got.taken === 0) throw new Error(`stream ${i}: nothing taken at ${taken}`);
        }
    }
    holds(true, 'streams');
}
