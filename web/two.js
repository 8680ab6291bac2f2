// Two recordings: side by side or one blinking over the other, and the tiles in which the two glasses differ, each with a line as `compare` has it. The proved comparison
// counts; here its lines are listed, outlined and led to.

import { Lines, cell } from './list.js';
import { count, many } from './texts.js';

const BLINK = 500; // milliseconds

export class Two {
    constructor(library, a, b, parts) {
        Object.assign(this, { library, a, b, parts, lines: [], way: 'side', timer: 0, turn: 0 });
        this.list = new Lines(parts.list, {
            fill: (line, item) => {
                cell(line, 'x', item.x);
                cell(line, 'y', item.y);
                cell(line, 'n', count(item.n));
                line.setAttribute('aria-label', `column ${item.x}, row ${item.y}: ${many(item.n, 'word')}`);
            },
            choose: (k) => this.choose(k),
        });
    }
    get on() { return this.b.recording !== null; }
    // Counts anew: another call of one of them is shown.
    async compare() {
        if (!this.on) return;
        this.differ ??= await this.library.differ();
        const { a, b } = this, sum = this.parts.sum;
        const sized = a.view.wide > 0 && b.view.wide > 0, same = sized && a.view.wide === b.view.wide && a.view.high === b.view.high;
        const old = a.view.words, next = b.view.words;
        this.lines = same && old && next ? this.differ.lines(a.view.wide, a.view.high, old, next, old.BYTES_PER_ELEMENT * 8) : [];
        if (!sized) sum.textContent = 'One of them shows no picture yet';
        else if (!same) sum.textContent = `The sizes differ: ${a.view.wide} × ${a.view.high} and ${b.view.wide} × ${b.view.high}`;
        else sum.textContent = this.lines.length === 0 ? 'No tile differs' : `${many(this.lines.length, 'tile differs', 'tiles differ')}`;
        this.parts.detail.textContent = `Call ${count(a.at + 1)} of A beside call ${count(b.at + 1)} of B.`;
        this.list.set(this.lines.length, (k) => this.lines[k], this.lines);
        this.list.mark(-1);
        for (const { view } of [a, b]) {
            view.outline(this.lines, 'differ');
            view.outline([], 'chosen');
        }
    }
    choose(k) {
        this.list.mark(k);
        this.a.view.lead(this.lines[k]);
        this.b.view.lead(this.lines[k]);
        const { x, y, n } = this.lines[k];
        this.parts.detail.textContent = `Tile ${x}, ${y}: ${many(n, 'word')} of call ${count(this.a.at + 1)} of A and call ${count(this.b.at + 1)} of B differ.`;
    }
    // Side by side, or A and B in turn at one place.
    show(way) {
        this.way = way;
        clearInterval(this.timer);
        this.turn = 0;
        const blink = this.on && way === 'blink';
        this.parts.views.classList.toggle('blink', blink);
        this.parts.views.classList.toggle('second', false);
        if (blink) this.timer = setInterval(() => this.parts.views.classList.toggle('second', (this.turn ^= 1) === 1), BLINK);
    }
}
