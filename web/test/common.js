// What the tests share: the library without a page, hashes, recordings made by the library's own writers, and counting what passed.

import { readFileSync } from 'node:fs';
import { Library } from '../calls.js';

export const root = new URL('../../', import.meta.url);
export const path = (name) => new URL(name, root).pathname;
const made = 'target/staticlib/wasm32/';
export const wasm = readFileSync(path(`${made}xurbalenz.wasm`));
export const facts = JSON.parse(readFileSync(path(`${made}facts.json`), 'utf8'));
export const library = await Library.open(wasm, facts);

// FNV-1a of 64 bits, in two halves: the prime is 2^40 + 435.
export function hash(bytes) {
    let high = 0xcbf29ce4, low = 0x84222325;
    for (let i = 0; i < bytes.length; i++) {
        const mixed = (low ^ bytes[i]) >>> 0;
        low = Math.imul(mixed, 435) >>> 0;
        high = (Math.imul(high, 435) + (mixed << 8) + (mixed * 435 - low) / 4294967296) >>> 0;
    }
    return [high, low].map((half) => half.toString(16).padStart(8, '0')).join('');
}
export const raw = (words) => new Uint8Array(words.buffer, words.byteOffset, words.byteLength);

// Random numbers that are the same every time.
export function random(seed) {
    let s = seed >>> 0;
    return (below) => {
        s = (Math.imul(s, 1664525) + 1013904223) >>> 0;
        return Math.floor((s / 4294967296) * below);
    };
}

let passed = 0;
export function same(found, asked, what) {
    const [f, a] = [found, asked].map((value) => JSON.stringify(value));
    if (f !== a) throw new Error(`${what}: ${f?.slice(0, 400)} and not ${a?.slice(0, 400)}`);
    passed++;
}
export function holds(test, what) { same(Boolean(test), true, what); }
export const tally = () => passed;

// ---- recordings, by the library's own writers

const memory = await library.memory(), { calls } = memory;
const [out, work, other, room] = [memory.lend(16), memory.lend(16384), memory.lend(16384), 4 << 20], into = memory.lend(room), quant = memory.lend(16), picks = memory.lend(8192);
const [old, next] = [memory.lend(3 << 20), memory.lend(3 << 20)];
memory.bytes(quant, 10).set([6, 6, 6, 6, 7, 7, 8, 8, 8, 9]);
const wrote = (number) => {
    if (number !== 0) throw new Error(`a writer answered ${number}`);
    return memory.bytes(into, memory.size(out)).slice();
};
export const headers = (w, h, mode = 4) => wrote(calls.xurbalenz_write_headers(BigInt(w), BigInt(h), mode, into, BigInt(room), out));
export function frame(w, h, pixels, index = 0, mode = 4) {
    memory.bytes(next, pixels.length).set(pixels);
    return wrote(calls.xurbalenz_write_frame(BigInt(w), BigInt(h), mode, quant, index, next, BigInt(pixels.length), work, 4096n, other, 4096n, into, BigInt(room), out));
}
export function short(w, h, before, after, tiles, index = 0, mode = 4) {
    memory.bytes(old, before.length).set(before);
    memory.bytes(next, after.length).set(after);
    memory.words(picks, tiles.length, 32).set(tiles);
    const n = BigInt(before.length);
    return wrote(calls.xurbalenz_write_frame_short(BigInt(w), BigInt(h), mode, quant, quant, index, old, n, next, n, picks, BigInt(tiles.length), work, 4096n, other, 4096n, into, BigInt(room), out));
}
export const joined = (...parts) => Uint8Array.from(Buffer.concat(parts));
// A picture of bars and blocks that moves with `t`.
export function drawing(w, h, t) {
    const pixels = new Uint8Array(3 * w * h);
    for (let y = 0, k = 0; y < h; y++) {
        for (let x = 0; x < w; x++) {
            pixels[k++] = (x + 3 * t) & 255;
            pixels[k++] = ((x >> 4) ^ ((y + t) >> 4)) & 1 ? 200 : 40;
            pixels[k++] = (y * 2 + t) & 255;
        }
    }
    return pixels;
}
