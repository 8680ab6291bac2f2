// A recording: its calls with what each came to, and the glass after any of them. The file is read in pieces and never held whole; going to a call starts from the last
// copy of the glass before it (copies.js) and reads the calls behind that again.

import { KIND } from './calls.js';
import { Copies } from './copies.js';

const BUDGET = 144 << 20; // bytes of copies
const NEAR = 10; // glasses held where one has just gone back, for the next steps back
const GAP = 24; // milliseconds of reading after which a copy is made
const TURN = 14; // milliseconds of reading before the page may draw
const LOOK = 90; // milliseconds after which it is told how far it is

const now = () => performance.now();
const breathe = () => new Promise((done) => {
    const channel = new MessageChannel();
    channel.port1.onmessage = () => { channel.port1.close(); done(); };
    channel.port2.postMessage(0);
});

export class Recording {
    // `file` is a Blob; it stays where it is, and pieces of it are asked for.
    static async open(library, file, name, options) {
        const reader = await library.reader(options.bits, options.sender), shower = await library.reader(options.bits, options.sender);
        return new Recording(library, file, name, options, reader, shower);
    }
    constructor(library, file, name, options, reader, shower) {
        Object.assign(this, { library, file, name, options, reader, shower });
        Object.assign(this, { calls: [], records: [shower.records()], refused: [], whole: false, at: -1, want: -1, near: new Map(), gone: false });
        this.copies = new Copies(options.budget ?? BUDGET);
        this.spent = this.copied = this.done = 0;
    }

    // ---- reading all of it, once

    // Reads to the end; `seen` is called now and then, and at the end. Answers a refusal of the collector or what is left over, if any.
    async read(seen) {
        let start = 0, turn = now(), look = 0;
        for (let at = 0; at < this.file.size && !this.gone; at += this.library.piece) {
            this.reader.give(new Uint8Array(await this.file.slice(at, at + this.library.piece).arrayBuffer()));
            while (this.reader.left > 0 && !this.gone) {
                const got = this.reader.gather();
                this.done += got.taken;
                if (got.number !== 0) return this.end({ kind: 'bytes', number: got.number, at: start, size: this.done - start }, seen);
                if (got.kind === KIND.none) continue;
                this.call(got, start);
                start = this.done;
                if (now() - turn < TURN) continue;
                if (turn - look > LOOK) seen(this, (look = turn));
                await breathe();
                turn = now();
            }
        }
        return this.end(start < this.done ? { kind: 'rest', number: 0, at: start, size: this.done - start } : null, seen);
    }
    call({ kind, size }, at) {
        const began = now(), head = kind === KIND.header, said = head ? this.reader.header(size) : this.reader.frame(size);
        this.spent += now() - began;
        const record = this.reader.records();
        if (record.some((byte, k) => byte !== this.records.at(-1)[k])) this.records.push(record);
        if (said.number !== 0) this.refused.push(this.calls.length);
        this.calls.push({ kind: head ? 'header' : 'frame', number: said.number, tiles: said.tiles, cut: said.cut, at, size, record: this.records.length - 1 });
        if (this.spent - this.copied < GAP || head || said.number !== 0) return;
        this.copied = this.spent;
        this.copies.add(this.calls.length - 1, this.spent, this.reader.keep());
    }
    end(last, seen) {
        this.whole = true;
        this.last = last;
        seen(this);
        this.reader = null;
        return last;
    }
    close() { this.gone = true; }

    // ---- the glass after a call

    // The glass after the last call that was read so far, as long as it is being read.
    newest() { return this.reader && { at: this.calls.length - 1, ...this.reader.keep() }; }
    // Goes to a call; where several are asked for meanwhile the last one counts.
    async goTo(i) {
        this.want = i;
        this.going ??= this.go().finally(() => { this.going = null; });
        await this.going;
    }
    async go() {
        while (this.at !== this.want) await this.step(this.want);
    }
    async step(to) {
        const back = to < this.at, copy = this.copies.before(to), close = Math.max(-1, ...[...this.near.keys()].filter((k) => k <= to));
        if (back && close >= 0 && close >= (copy?.index ?? -1)) this.restore(close, this.near.get(close));
        else if (back || (copy && copy.index > this.at)) {
            this.restore(copy ? copy.index : -1, copy && Copies.state(copy));
            this.near.clear();
        }
        await this.again(this.at + 1, to, back);
        this.at = to;
    }
    restore(at, state) {
        this.shower.restore(state ?? { records: this.records[0], wide: 0, high: 0, words: [] });
        this.at = at;
    }
    // Reads calls `from` to `to` again, those that were done: the refused ones changed nothing, unless a filter in front held a header back.
    async again(from, to, back) {
        for (let i = from; i <= to; i++) {
            const call = this.calls[i];
            if (back && to - i < NEAR && i > from) this.near.set(i - 1, { ...this.shower.keep(), words: this.shower.words().slice() });
            if (call.number !== 0 && this.options.sender === 0) continue;
            this.shower.put(await this.message(call));
            if (call.kind === 'header') this.shower.header(call.size);
            else this.shower.frame(call.size);
        }
    }
    async message(call) { return new Uint8Array(await this.file.slice(call.at, call.at + call.size).arrayBuffer()); }

    // ---- what a frame drew

    // The tiles that call i drew, and how many words of each; with a place, whether it drew that word.
    async drawn(i, place) {
        const call = this.calls[i];
        if (!call || call.kind !== 'frame' || call.number !== 0) return { lines: [], hit: false };
        if (call.lines && place === undefined) return { lines: call.lines, hit: false };
        const message = await this.message(call), tracer = (this.tracer ??= await this.library.reader(this.options.bits, this.options.sender));
        tracer.restore({ records: this.records[call.record], wide: 0, high: 0, words: [] });
        const { width, height } = tracer.size();
        tracer.make(width, height);
        tracer.put(message);
        const said = tracer.drawn(call.size, place && place.y * width + place.x);
        call.lines = said.lines;
        return said;
    }
    // Which call drew a word last, of those up to call i; -1 if none. `live` says whether anybody still wants to know.
    async lastAt(i, x, y, tile, live) {
        const { wide, high } = this.shower;
        for (let k = i; k >= 0 && live(); k--) {
            const call = this.calls[k];
            if (call.kind !== 'frame' || call.number !== 0) continue;
            if (call.lines && !call.lines.some((line) => line.x === tile.x && line.y === tile.y)) continue;
            const said = await this.drawn(k, { x, y });
            const { width, height } = this.tracer.size();
            if (width !== wide || height !== high) return -1; // a session before this size
            if (said.hit) return k;
        }
        return live() ? -1 : undefined;
    }
}
