// A glass on the page: its words as pixels on a canvas, sharp at every zoom, with tiles outlined above it and the pixel under the pointer told.

const SVG = 'http://www.w3.org/2000/svg';

// Pixels of words, in the order that a canvas has them. A 5-6-5 word has each colour's first bits again behind them, so that the lightest is 255.
export function pixels(words, data) {
    const out = new Uint32Array(data.buffer);
    if (words.BYTES_PER_ELEMENT === 2) {
        for (let i = 0; i < words.length; i++) {
            const [r, g, b] = colour(words[i], 16);
            out[i] = 0xff000000 | (b << 16) | (g << 8) | r;
        }
    } else {
        for (let i = 0; i < words.length; i++) {
            const v = words[i];
            out[i] = 0xff000000 | ((v & 0xff) << 16) | (v & 0xff00) | (v >>> 16);
        }
    }
}

export function colour(word, bits) {
    if (bits === 32) return [word >>> 16, (word >>> 8) & 255, word & 255];
    const r = word >>> 11, g = (word >>> 5) & 63, b = word & 31;
    return [(r << 3) | (r >>> 2), (g << 2) | (g >>> 4), (b << 3) | (b >>> 2)];
}

export class View {
    // `box` has a scrolling .port with a .paper in it; `tile` is a tile's side; `pointed` is told the pixel, or nothing.
    constructor(box, tile, pointed) {
        Object.assign(this, { box, tile, zoom: 1, wide: 0, high: 0, words: null });
        this.port = box.querySelector('.port');
        this.paper = box.querySelector('.paper');
        this.canvas = box.querySelector('canvas');
        this.svg = box.querySelector('svg');
        this.caption = box.querySelector('figcaption');
        this.context = this.canvas.getContext('2d', { willReadFrequently: true });
        this.paper.addEventListener('pointermove', (event) => {
            const frame = this.canvas.getBoundingClientRect();
            const x = Math.floor((event.clientX - frame.left) / this.zoom), y = Math.floor((event.clientY - frame.top) / this.zoom);
            pointed(x >= 0 && y >= 0 && x < this.wide && y < this.high ? { x, y } : null);
        });
        this.paper.addEventListener('pointerleave', () => pointed(null));
    }
    // Shows a glass; the words are copied, so that they can be asked for afterwards.
    show({ wide, high, words }) {
        const empty = wide === 0;
        this.box.classList.toggle('empty', empty);
        if (wide !== this.wide || high !== this.high) {
            Object.assign(this, { wide, high, words: null });
            this.canvas.width = Math.max(1, wide);
            this.canvas.height = Math.max(1, high);
            this.svg.setAttribute('viewBox', `0 0 ${Math.max(1, wide)} ${Math.max(1, high)}`);
            this.outline([], 'listed');
            this.outline([], 'chosen');
            this.resize();
        }
        if (empty) return;
        if (this.words?.BYTES_PER_ELEMENT === words.BYTES_PER_ELEMENT) this.words.set(words);
        else this.words = words.slice();
        this.image = this.image?.width === wide && this.image.height === high ? this.image : new ImageData(wide, high);
        pixels(words, this.image.data);
        this.context.putImageData(this.image, 0, 0);
    }
    resize(zoom = this.zoom) {
        this.zoom = zoom;
        this.canvas.classList.toggle('small', zoom < 1);
        this.paper.style.width = `${this.wide * zoom}px`;
        this.paper.style.height = `${this.high * zoom}px`;
    }
    // The largest whole zoom at which all of it is seen; where 1 is too large, a part of 1.
    fitting() {
        if (this.wide === 0) return 1;
        const fit = Math.min((this.port.clientWidth - 2) / this.wide, (this.port.clientHeight - 2) / this.high);
        return fit >= 1 ? Math.min(8, Math.floor(fit)) : Math.max(0.1, fit);
    }
    place({ x, y }) {
        const left = x * this.tile, top = y * this.tile;
        return { x: left, y: top, width: Math.min(this.tile, this.wide - left), height: Math.min(this.tile, this.high - top) };
    }
    // Outlines tiles, all of one kind: `listed` (those that a frame drew), `differ`, `chosen`.
    outline(tiles, kind) {
        for (const old of this.svg.querySelectorAll(`.${kind}`)) old.remove();
        for (const tile of tiles) {
            const rect = document.createElementNS(SVG, 'rect');
            for (const [name, value] of Object.entries(this.place(tile))) rect.setAttribute(name, value);
            rect.setAttribute('class', kind);
            this.svg.append(rect);
        }
    }
    // Brings a tile to the middle of what is seen.
    lead(tile) {
        const { x, y, width, height } = this.place(tile), z = this.zoom;
        this.port.scrollTo({ left: (x + width / 2) * z - this.port.clientWidth / 2, top: (y + height / 2) * z - this.port.clientHeight / 2 });
        this.outline([tile], 'chosen');
    }
    // A cross over a pixel, for the cursor that the keyboard moves.
    cross(place) {
        for (const old of this.svg.querySelectorAll('.cross')) old.remove();
        if (!place) return;
        const path = document.createElementNS(SVG, 'path'), { x, y } = place;
        path.setAttribute('d', `M0 ${y + 0.5}H${x - 1}M${x + 2} ${y + 0.5}H${this.wide}M${x + 0.5} 0V${y - 1}M${x + 0.5} ${y + 2}V${this.high}`);
        path.setAttribute('class', 'cross');
        this.svg.append(path);
    }
    // What is known of a pixel without asking anybody.
    at({ x, y }) {
        const bits = this.words.BYTES_PER_ELEMENT * 8, word = this.words[y * this.wide + x];
        return { x, y, word, bits, colour: colour(word, bits), tile: { x: Math.floor(x / this.tile), y: Math.floor(y / this.tile) } };
    }
}
