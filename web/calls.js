// The one module that speaks to the library: the proved code as WebAssembly. It lends memory to the calls that bindings/c/xurbalenz.h describes, hands them bytes and
// gives back what they answer. No rule of the codec stands here or anywhere else in the page; what has to be known of the header comes from it (`facts`, tools/web).

const STORE = 32 << 20; // the longest block or frame that is taken; memory that nothing was written to costs nothing
const PIECE = 256 << 10; // bytes of a file that are handed over at a time
const UNDRAWN = 0xffffffff; // a word that no colour has
const TILES = 2048; // counts that are lent: more than tiles are never asked for
const HELD = 38; // bytes in which the filter holds headers that wait

export const KIND = { none: 0, header: 1, frame: 2 }; // what the collector hands on
export const SENDERS = ['as it came', 'FreeRDP', 'MS-RDPRFX’s sample']; // by the filter's numbers; 0 is strict, and no filter

// An instance of the library with the memory that is lent to its calls.
class Memory {
    constructor(exports) {
        this.calls = exports;
        this.top = exports.__heap_base.value;
    }
    lend(bytes) {
        const at = (this.top + 15) & ~15;
        this.top = at + bytes;
        const more = this.top - this.calls.memory.buffer.byteLength;
        if (more > 0) this.calls.memory.grow(Math.ceil(more / 65536)); // every view is made anew after this
        return at;
    }
    bytes(at, n) { return new Uint8Array(this.calls.memory.buffer, at, n); }
    words(at, n, bits) { return new (bits === 16 ? Uint16Array : Uint32Array)(this.calls.memory.buffer, at, n); }
    size(at) { return Number(new DataView(this.calls.memory.buffer).getBigUint64(at, true)); }
    // Counts the differing words of two pictures tile by tile; then asks for the tiles that differ, one after the other.
    differing(width, height, old, next, bits, out) {
        const counts = out + 32, [w, h, words] = [BigInt(width), BigInt(height), BigInt(width * height)], lines = [];
        const count = bits === 16 ? this.calls.xurbalenz_count_tiles : this.calls.xurbalenz_count_tiles_32;
        if (count(w, h, old, words, next, words, counts, BigInt(TILES)) !== 0) return lines;
        for (let from = 0; ; from = lines.at(-1).tile + 1) {
            this.calls.xurbalenz_next_tile(w, h, counts, BigInt(TILES), BigInt(from), out, out + 8, out + 16, out + 24);
            const n = this.words(out + 24, 1, 32)[0];
            if (n === 0) return lines;
            lines.push({ tile: this.size(out), x: this.size(out + 8), y: this.size(out + 16), n });
        }
    }
}

export class Library {
    static async open(bytes, facts) { return new Library(await WebAssembly.compile(bytes), facts); }
    constructor(module, facts) {
        this.module = module;
        this.facts = facts;
        this.store = STORE;
        this.piece = PIECE;
    }
    async memory() { return new Memory((await WebAssembly.instantiate(this.module, {})).exports); }
    async reader(bits, sender = 0) { return new Reader(await this.memory(), this.facts, bits, sender); }
    async differ() { return new Differ(await this.memory()); }
    // Whose streams can be made acceptable: none, where the library has no filter that takes a sender.
    get senders() { return WebAssembly.Module.exports(this.module).some(({ name }) => name === 'xurbalenz_tidy_header') ? SENDERS : SENDERS.slice(0, 1); }
    word(number) { return this.facts.words[number] ?? this.facts.unknown[0]; }
    says(number) { return this.facts.says[number] ?? this.facts.unknown[1]; }
}

// Reads a recording: bytes are given and gathered to messages, each message goes to its call, the glass changes.
export class Reader {
    constructor(memory, facts, bits, sender) {
        const m = memory, lists = 4 * facts.list;
        Object.assign(this, { m, facts, bits, sender, room: 0, wide: 0, high: 0, given: 0, left: 0 });
        this.session = m.lend(facts.session.size);
        this.second = m.lend(facts.session.size); // the same session on a glass of 32 bits, for `drawn`
        this.held = m.lend(HELD);
        this.collector = m.lend(facts.collector.size);
        this.out = m.lend(32 + 4 * TILES);
        this.work = [0, 1, 2, 3].map(() => m.lend(lists));
        this.piece = m.lend(PIECE);
        this.store = m.lend(STORE);
        this.glass = this.trace = this.blank = this.store; // of no length yet
        if (sender > 0) [this.passed, this.part, this.parter] = [m.lend(STORE), m.lend(STORE), m.lend(facts.collector.size)];
        m.bytes(this.session + facts.session.glass, 1)[0] = bits === 16 ? 0 : 1;
        m.bytes(this.second + facts.session.glass, 1)[0] = 1;
    }

    // ---- the stream, in pieces of at most PIECE bytes

    give(bytes) {
        this.m.bytes(this.piece, bytes.length).set(bytes);
        this.given = 0;
        this.left = bytes.length;
    }
    // Takes of the piece up to the end of one message: which call it is for, and how long it is.
    gather() {
        const o = this.out;
        const number = this.m.calls.xurbalenz_collect(this.collector, this.piece + this.given, BigInt(this.left), this.store, BigInt(STORE), o, o + 8, o + 16);
        const taken = this.m.size(o + 16);
        this.given += taken;
        this.left -= taken;
        return { number, taken, kind: this.m.bytes(o, 1)[0], size: this.m.size(o + 8) };
    }
    // A message that was gathered before.
    put(bytes) { this.m.bytes(this.store, bytes.length).set(bytes); }

    // ---- the two calls, for the message in the store

    header(size) { return { number: this.sender > 0 ? this.ordered(this.store, size) : this.block(this.store, size), tiles: 0, cut: 0 }; }
    block(at, size) {
        const call = this.m.calls.xurbalenz_read_header, number = call(this.session, at, BigInt(size));
        call(this.second, at, BigInt(size));
        const { width, height } = this.size();
        if (number === 0 && width > 0 && (width !== this.wide || height !== this.high)) this.make(width, height).fill(0);
        return number;
    }
    frame(size) {
        if (this.sender > 0) this.ordered();
        const from = this.tidy(size), name = this.bits === 16 ? 'xurbalenz_read_frame' : 'xurbalenz_read_frame_32';
        const number = this.read(name, this.session, from, this.glass);
        return { number, tiles: this.m.size(this.out), cut: from.cut };
    }
    read(name, session, from, picture) {
        const lists = this.work.flatMap((list) => [list, BigInt(this.facts.list)]);
        return this.m.calls[name](session, from.at, BigInt(from.size), picture, BigInt(this.room), ...lists, this.out);
    }

    // ---- what other senders write is passed through the filter first

    // A frame: where what goes to the call is, how long, and how many of its codes were changed.
    tidy(size) {
        if (this.sender === 0) return { at: this.store, size, cut: 0 };
        const { width, height, mode } = this.size(), [list, into] = [[this.work[0], BigInt(this.facts.list)], [this.passed, BigInt(STORE)]];
        const number = this.m.calls.xurbalenz_tidy_frame(this.sender, BigInt(width), BigInt(height), mode, this.store, BigInt(size), ...list, ...into, this.out);
        return number === 0 ? { at: this.passed, size: this.m.size(this.out), cut: this.m.size(this.out + 8) } : { at: this.store, size, cut: 0 };
    }
    // A header block, or before a frame none: what goes on now, block by block, to the header call. Answers the first number that is not 0.
    ordered(at, size) {
        const { xurbalenz_tidy_header: give, xurbalenz_tidy_flush: flush, xurbalenz_collect: collect } = this.m.calls, o = this.out, into = [this.passed, BigInt(STORE), o];
        const number = at ? give(this.held, BigInt(HELD), at, BigInt(size), ...into) : flush(this.held, BigInt(HELD), ...into), end = this.passed + this.m.size(o);
        let first = number;
        for (let from = this.passed; from < end; from += this.m.size(o + 16)) {
            if (collect(this.parter, from, BigInt(end - from), this.part, BigInt(STORE), o, o + 8, o + 16) !== 0 || this.m.bytes(o, 1)[0] !== KIND.header) break;
            first ||= this.block(this.part, this.m.size(o + 8));
        }
        return first;
    }

    // Which words a frame draws: it is read once more, onto a second glass that holds nothing but a word that no colour has, and the comparison counts those that
    // are something else then. With `at`, whether it draws that word.
    drawn(size, at) {
        const { width, height } = this.size(), words = width * height, m = this.m;
        m.words(this.trace, words, 32).fill(UNDRAWN);
        if (this.read('xurbalenz_read_frame_32', this.second, this.tidy(size), this.trace) !== 0) return { lines: [], hit: false };
        const hit = at !== undefined && m.words(this.trace, words, 32)[at] !== UNDRAWN;
        return { lines: m.differing(width, height, this.blank, this.trace, 32, this.out), hit };
    }

    // ---- what is kept from call to call

    size() {
        const f = this.facts.session, v = new DataView(this.m.calls.memory.buffer, this.session, f.size);
        return { width: v.getUint16(f.width, true), height: v.getUint16(f.height, true), mode: v.getUint8(f.mode) };
    }
    records() { return this.m.bytes(this.session, this.held + HELD - this.session).slice(); }
    words() { return this.m.words(this.glass, this.wide * this.high, this.bits); }
    // A glass of the channel's size: one of another size starts black, one of the same stays.
    make(width, height) {
        const words = width * height;
        if (words > this.room) {
            [this.glass, this.trace, this.blank] = [0, 0, 0].map(() => this.m.lend(4 * words));
            this.m.words(this.blank, words, 32).fill(UNDRAWN);
            this.room = words;
        }
        Object.assign(this, { wide: width, high: height });
        return this.words();
    }
    keep() { return { records: this.records(), wide: this.wide, high: this.high, words: this.words() }; }
    restore({ records, wide, high, words }) {
        this.m.bytes(this.session, records.length).set(records);
        this.make(wide, high).set(words);
    }
}

// Compares two glasses, which stand in the memory of other instances.
export class Differ {
    constructor(memory) {
        this.m = memory;
        this.room = 0;
        this.out = memory.lend(32 + 4 * TILES);
    }
    lines(width, height, old, next, bits) {
        const words = width * height;
        if (words > this.room) [this.old, this.next, this.room] = [this.m.lend(4 * words), this.m.lend(4 * words), words];
        this.m.words(this.old, words, bits).set(old);
        this.m.words(this.next, words, bits).set(next);
        return this.m.differing(width, height, this.old, this.next, bits, this.out);
    }
}
