// Copies of the glass, so that going back does not read a recording from its start: one now and then, the rest is read again. Words are kept as runs of one colour, or
// packed where that is shorter; bands of rows that did not change since the copy before are shared; and where all of them together grow too large, the copy that
// costs least goes.

const BAND = 64; // rows of a band

// How often and which word, in 32 bits: the count in the upper 8 for words of 24 bits, in the upper 16 for words of 16. Nothing where that is too long.
function runs(words, shift) {
    const most = 2 ** (32 - shift) - 1, out = new Uint32Array(words.length >> 1);
    let k = 0;
    for (let i = 0, n = 1; i < words.length; i += n, n = 1) {
        const word = words[i];
        while (n < most && words[i + n] === word) n++;
        if (k === out.length) return null;
        out[k++] = (n << shift) | word;
    }
    return out.slice(0, k);
}

function packed(words) {
    const short = words.BYTES_PER_ELEMENT === 2, found = runs(words, short ? 16 : 24);
    if (found && found.byteLength < words.length * 2) return found;
    if (short) return words.slice();
    const out = new Uint8Array(3 * words.length);
    for (let i = 0, k = 0; i < words.length; i++) {
        const v = words[i];
        out[k++] = v;
        out[k++] = v >>> 8;
        out[k++] = v >>> 16;
    }
    return out;
}

function unpack(band, words, at) {
    if (band instanceof Uint16Array) return words.set(band, at);
    if (band instanceof Uint8Array) {
        for (let k = 0; k < band.length; k += 3) words[at++] = band[k] | (band[k + 1] << 8) | (band[k + 2] << 16);
        return;
    }
    const shift = words.BYTES_PER_ELEMENT === 2 ? 16 : 24, mask = 2 ** shift - 1;
    for (const run of band) words.fill(run & mask, at, (at += run >>> shift));
}

function same(a, b) {
    if (a.constructor !== b.constructor || a.length !== b.length) return false;
    for (let i = 0; i < a.length; i++) if (a[i] !== b[i]) return false;
    return true;
}

export class Copies {
    constructor(budget) {
        Object.assign(this, { budget, list: [], bytes: 0 });
    }
    // The glass after call `index`; `cost` is the time that reading all calls up to it took.
    add(index, cost, { records, wide, high, words }) {
        const bands = [], before = this.list.at(-1)?.bands ?? [];
        for (let at = 0, k = 0; at < words.length; at += BAND * wide, k++) {
            const data = packed(words.subarray(at, at + BAND * wide));
            const band = before[k] && same(before[k].data, data) ? before[k] : { data, users: 0 };
            if (band.users++ === 0) this.bytes += data.byteLength;
            bands.push(band);
        }
        this.list.push({ index, cost, records, wide, high, bits: words.BYTES_PER_ELEMENT * 8, bands });
        while (this.bytes > this.budget && this.list.length > 2) this.drop();
    }
    // Drops the copy between whose neighbours there is the least to read again; never the first or the last.
    drop() {
        const gap = (k) => this.list[k + 1].cost - this.list[k - 1].cost;
        let least = 1;
        for (let k = 2; k < this.list.length - 1; k++) if (gap(k) < gap(least)) least = k;
        for (const band of this.list.splice(least, 1)[0].bands) if (--band.users === 0) this.bytes -= band.data.byteLength;
    }
    // The last copy that is not behind call `index`.
    before(index) {
        let low = 0, high = this.list.length;
        while (low < high) {
            const middle = (low + high) >> 1;
            if (this.list[middle].index <= index) low = middle + 1;
            else high = middle;
        }
        return this.list[low - 1];
    }
    static state({ records, wide, high, bits, bands }) {
        const words = new (bits === 16 ? Uint16Array : Uint32Array)(wide * high);
        bands.forEach((band, k) => unpack(band.data, words, k * BAND * wide));
        return { records, wide, high, words };
    }
}
