// Recorded calls of an independent implementation (bindings/vectors, FORMAT.md there says how to read them), through the library as WebAssembly: answer, value, record
// and the hash of what is lent must be the same.

import { readFileSync, readdirSync } from 'node:fs';
import { hash, library, path, raw, same } from './common.js';

const m = await library.memory(), x = m.calls, start = m.top, { session: at } = library.facts;
const N = BigInt;
// Memory for one call: bytes, or words of some width, as they come.
const lend = (data) => {
    const place = m.lend(Math.max(8, data.byteLength));
    m.bytes(place, data.byteLength).set(raw(data));
    return place;
};
const back = (place, data) => new data.constructor(x.memory.buffer, place, data.length).slice();
const filled = (type, n, value) => new type(n).fill(value);
const items = (word) => (word === '-' ? [] : word.split(',').map((item) => item.split('*')));
const bytes = (word) => Buffer.concat(items(word).map(([hex, times = 1]) => Buffer.from(hex.repeat(Number(times)), 'hex')));
const numbers = (word) => items(word).flatMap(([n, times = 1]) => new Array(Number(times)).fill(Number(n)));

function pixels(word, width, length) {
    const [kind, seed] = word.split(':'), wide = Math.max(1, width), s = Number(seed), flat = kind === 'flat' && Buffer.from(seed, 'hex'), out = new Uint8Array(length);
    let state = BigInt.asUintN(31, kind === 'flat' ? 0n : N(seed));
    const step = () => Number((state = (state * 1103515245n + 12345n) & 0x7fffffffn) >> 16n);
    for (let i = 0; i < length; i++) {
        const c = i % 3, px = Math.floor(i / 3) % wide, py = Math.floor(Math.floor(i / 3) / wide);
        if (kind === 'flat') out[i] = flat[c];
        else if (kind === 'noise') out[i] = step();
        else if (kind === 'text') out[i] = step() % 5 === 0 ? 0 : 255;
        else if (kind === 'grad') out[i] = [px + s, py + 2 * s, px + py][c];
        else out[i] = s * (37 + 100 * (((px >> 3) + (py >> 3)) % 2)) + 85 * c;
    }
    return out;
}

class Case {
    constructor() {
        Object.assign(this, { record: new Uint8Array(at.size), picture: new Uint16Array(0), collector: new Uint8Array(library.facts.collector.size), memory: new Uint8Array(0), lent: 0 });
    }
    said() {
        const v = new DataView(this.record.buffer);
        return `${v.getUint8(at.headers)} ${v.getUint16(at.width, true)} ${v.getUint16(at.height, true)} ${v.getUint8(at.mode)}`;
    }
    header(message) {
        const s = lend(this.record), number = x.xurbalenz_read_header(s, lend(message), N(message.length));
        this.record = back(s, this.record);
        return number;
    }
    show(message, lengths) {
        const s = lend(this.record), pic = lend(this.picture), lists = [...lengths.map(Number), 4096].map((n) => filled(Int32Array, n, 7)), places = lists.map(lend), tiles = m.lend(8);
        const call = this.picture.BYTES_PER_ELEMENT === 2 ? x.xurbalenz_read_frame : x.xurbalenz_read_frame_32;
        const number = call(s, lend(message), N(message.length), pic, N(this.picture.length), ...places.flatMap((place, k) => [place, N(lists[k].length)]), tiles);
        this.record = back(s, this.record);
        this.picture = back(pic, this.picture);
        const left = places.map((place, k) => back(place, lists[k])), all = (v) => left.every((list) => list.every((n) => n === v));
        return `${number} ${m.size(tiles)} ${all(7) ? 'u' : all(0) ? 'z' : '?'} ${this.said()} ${hash(raw(this.picture))}`;
    }
    component(mode, code, length) {
        const list = filled(Int32Array, length, 7), place = lend(list), bits = m.lend(8);
        const number = x.xurbalenz_read_component(mode, lend(code), N(code.length), place, N(length), bits);
        return `${number} ${m.size(bits)} ${hash(raw(back(place, list)))}`;
    }
    // A writer: `call` is given the output, its length and the place of the size.
    write(kept, length, call) {
        const out = filled(Uint8Array, Number(length), 0xa5), place = lend(out), size = m.lend(8), number = call(place, N(length), size), after = back(place, out);
        this[kept] = after.slice(0, m.size(size));
        return `${number} ${m.size(size)} ${hash(after)}`;
    }
    frame(words) {
        const sets = words.length === 11 ? 1 : 2, [w, h, mode] = words, quants = words.slice(3, 3 + sets).map((q) => lend(Uint8Array.from(numbers(q))));
        const [index, pix, length, l1, l2, l3, room] = words.slice(3 + sets), data = pixels(pix, Number(w), Number(length));
        const lists = [l1, l2, l3].map(Number).sort((a, b) => (a === 4096) - (b === 4096)).slice(0, 2).flatMap((n) => [lend(filled(Int32Array, n, 7)), N(n)]);
        const call = sets === 1 ? x.xurbalenz_write_frame : x.xurbalenz_write_frame_sets;
        const [number, size, hashed] = this.write('frames', room, (...out) => call(N(w), N(h), Number(mode), ...quants, Number(index), lend(data), N(length), ...lists, ...out)).split(' ');
        return `${number} ${size} ${['5', '7', '2'].includes(number) ? 'u' : 'z'} ${hashed}`;
    }
    settings(version, given) {
        const luma = m.lend(10), chroma = m.lend(10), mode = m.lend(1), number = x.xurbalenz_read_settings(Number(version), lend(given), N(given.length), luma, chroma, mode);
        const set = (place) => Array.from({ length: 5 }, (_, k) => m.bytes(place, 10)[2 * k] + 16 * m.bytes(place, 10)[2 * k + 1]).map((b) => b.toString(16).padStart(2, '0')).join('');
        return number === 0 ? `0 ${set(luma)} ${set(chroma)} ${m.bytes(mode, 1)[0]}` : `${number} - - ${m.bytes(mode, 1)[0]}`;
    }
    gathered() {
        const v = new DataView(this.collector.buffer);
        return `${v.getBigUint64(0, true)} ${v.getUint8(26)} ${hash(this.memory.subarray(0, this.lent))}`;
    }
    take(given) {
        const c = lend(this.collector), store = lend(this.memory), o = m.lend(32);
        const number = x.xurbalenz_collect(c, lend(given), N(given.length), store, N(this.lent), o, o + 8, o + 16);
        this.collector = back(c, this.collector);
        this.memory = back(store, this.memory);
        const kind = m.bytes(o, 1)[0], size = m.size(o + 8);
        return `${number === 0 ? 'whf'[kind] : number} ${m.size(o + 16)} ${size} ${kind === 0 ? '-' : hash(this.memory.subarray(0, size))} ${this.gathered()}`;
    }
    caps(given) {
        const o = m.lend(16), number = x.xurbalenz_read_caps(lend(given), N(given.length), o, o + 4, o + 8);
        return [number, m.words(o, 1, 32)[0], m.bytes(o + 4, 1)[0], ...m.bytes(o + 8, 4)].join(' ');
    }
    call([name, ...w]) {
        if (name === 'hdr') return `${this.header(bytes(w[0]))} ${this.said()}`;
        if (name === 'frm') return this.show(bytes(w[0]), w.slice(1));
        if (name === 'frw') return this.show(this.frames, w);
        if (name === 'rdc') return this.component(Number(w[0]), bytes(w[1]), Number(w[2]));
        if (name === 'rdw') return this.component(Number(w[0]), this.components, 4096);
        if (name === 'wrc') return this.write('components', w[2], (...out) => x.xurbalenz_write_component(Number(w[0]), lend(Int32Array.from(numbers(w[1]))), N(numbers(w[1]).length), ...out));
        if (name === 'wrh') return this.write('headers', w[3], (...out) => x.xurbalenz_write_headers(N(w[0]), N(w[1]), Number(w[2]), ...out));
        if (name === 'hdw') return `${[[0, 12], [12, 22], [22, 34], [34, 47]].map((part) => this.header(this.headers.slice(...part))).join(' ')} ${this.said()}`;
        if (name === 'wrf' || name === 'wr2') return this.frame(w);
        if (name === 'set') return this.settings(w[0], bytes(w[1]));
        if (name === 'setw') return this.settings(w[0], this.kept);
        if (name === 'wset') return this.write('kept', w[3], (...out) => x.xurbalenz_write_settings(lend(Uint8Array.from(numbers(w[0]))), lend(Uint8Array.from(numbers(w[1]))), Number(w[2]), ...out));
        if (name === 'take') return this.take(bytes(w[0]));
        if (name === 'cap') return this.caps(bytes(w[0]));
        if (name === 'wcap') {
            const entries = items(w[1]).map(([pair]) => pair.split(':').map(Number));
            const four = [0, 1].flatMap((k) => entries[k] ?? [7, 7]);
            return this.write('caps_', w[2], (...out) => x.xurbalenz_write_caps(Number(w[0]), entries.length, lend(Uint8Array.from(four)), ...out));
        }
        if (name === 'reset') {
            const c = lend(this.collector);
            x.xurbalenz_collect_reset(c);
            this.collector = back(c, this.collector);
            return this.gathered();
        }
        const o = m.lend(40), given = name === 'fac' || name === 'ack' ? bytes(w[0]) : null;
        if (name === 'fac') return `${x.xurbalenz_read_ack_cap(lend(given), N(given.length), o)} ${m.words(o, 1, 32)[0]}`;
        if (name === 'wfac') return this.write('ack', w[1], (...out) => x.xurbalenz_write_ack_cap(Number(w[0]), ...out));
        if (name === 'ack') return `${x.xurbalenz_read_ack(lend(given), N(given.length), o)} ${[...m.words(o, 9, 32)].join(' ')}`;
        if (name === 'wack') return this.write('ack', w[9], (...out) => x.xurbalenz_write_ack(...w.slice(0, 9).map(Number), ...out));
        throw new Error(`no such call: ${name}`);
    }
    set([name, ...w]) {
        const n = w.map(Number);
        if (name === 'glass') this.record[at.glass] = n[0] === 32 ? 1 : 0;
        else if (name === 'rec') {
            const v = new DataView(this.record.buffer), [headers, width, height, mode] = n;
            [[at.headers, headers], [at.mode, mode], [at.columns, Math.ceil(width / 64)], [at.rows, Math.ceil(height / 64)]].forEach(([place, value]) => v.setUint8(place, value));
            v.setUint16(at.width, width, true);
            v.setUint16(at.height, height, true);
            v.setUint32(at.words, width * height, true);
        } else if (name === 'pic') {
            this.picture = new (w[2] === '32' ? Uint32Array : Uint16Array)(n[0]);
            for (let i = 0; i < n[0]; i++) this.picture[i] = (Math.imul(i, 25173) + Math.imul(n[1], 13849) + 1) & 0xffffff;
        } else if (name === 'col') [this.lent, this.memory] = [n[0], filled(Uint8Array, n[0], 0xa5)];
        else if (name === 'store') {
            const longer = filled(Uint8Array, Math.max(this.memory.length, n[0]), 0xa5);
            longer.set(this.memory);
            [this.lent, this.memory] = [n[0], longer];
        } else if (name !== 'opt') throw new Error(`no such setting: ${name}`);
    }
}

export function vectors() {
    let cases = 0, made = 0;
    // those of plans, short frames and tidied codes are the other bindings' tests: the page makes no such call with recorded answers (the filter has a test of its own)
    for (const file of readdirSync(path('bindings/vectors')).filter((name) => name.endsWith('.vec') && !/^(beyond_|request_eleven)/.test(name)).sort()) {
        let now = new Case();
        readFileSync(path(`bindings/vectors/${file}`), 'utf8').split('\n').forEach((line, i) => {
            if (line === '' || line.startsWith('#')) return;
            m.top = start;
            const [left, right] = line.split(' -> '), words = left.split(' ');
            if (right !== undefined) {
                same(now.call(words), right, `${file}, line ${i + 1}`);
                made++;
            } else if (words[0] === 'case') {
                now = new Case();
                cases++;
            } else now.set(words);
        });
    }
    return { cases, made };
}
