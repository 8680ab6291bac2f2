// The pixel under the pointer, or under a cursor that the keyboard moves: its place, word, colour and tile, and which call drew it last, which is looked for while
// nothing else is asked.

import { count, hex } from './texts.js';

const HINT = 'Point at the glass, or press I: a pixel’s word, colour and tile, and which call drew it last.';

export class Pixel {
    constructor(line) {
        Object.assign(this, { line, asked: 0, place: null, player: null, cursor: null });
        this.tell(null, null);
    }
    // Tells of a pixel of a player's glass.
    async tell(player, place) {
        const asked = ++this.asked;
        Object.assign(this, { player, place });
        if (!place || !player.view.words) {
            this.line.textContent = HINT;
            return;
        }
        const known = player.view.at(place), [r, g, b] = known.colour, swatch = document.createElement('i');
        swatch.style.background = `rgb(${r} ${g} ${b})`;
        const last = document.createElement('span');
        last.textContent = 'drawn by …';
        this.line.replaceChildren(
            `Pixel ${known.x}, ${known.y}  ·  word ${hex(known.word, known.bits)}  ·  `, swatch, ` red ${r}, green ${g}, blue ${b}  ·  tile ${known.tile.x}, ${known.tile.y}  ·  `, last,
        );
        await new Promise((done) => setTimeout(done, 40)); // the pointer may only be passing
        if (asked !== this.asked || !player.recording) return;
        const call = await player.recording.lastAt(player.at, place.x, place.y, known.tile, () => asked === this.asked);
        if (asked === this.asked && call !== undefined) last.textContent = call < 0 ? 'drawn by no call' : `drawn by call ${count(call + 1)}`;
    }
    // Tells anew of the same pixel: another call is shown.
    again(player) {
        if (player === this.player && this.place) this.tell(player, this.place);
    }
    // A cursor on the glass that arrow keys move, with Shift by a tile.
    start(player) {
        if (!player.view.words) return;
        this.cursor = player;
        this.move(0, 0);
    }
    move(dx, dy) {
        const { view } = this.cursor, from = this.player === this.cursor && this.place ? this.place : { x: view.wide >> 1, y: view.high >> 1 };
        const place = { x: Math.max(0, Math.min(view.wide - 1, from.x + dx)), y: Math.max(0, Math.min(view.high - 1, from.y + dy)) };
        view.cross(place);
        return this.tell(this.cursor, place);
    }
    end() {
        this.cursor?.view.cross(null);
        this.cursor = null;
        this.tell(null, null);
    }
    // Whether a key was meant for the cursor.
    key(event) {
        if (!this.cursor) return false;
        const by = event.shiftKey ? this.cursor.view.tile : 1;
        const to = { ArrowLeft: [-by, 0], ArrowRight: [by, 0], ArrowUp: [0, -by], ArrowDown: [0, by] }[event.key];
        if (to) this.move(...to);
        else if (event.key === 'Escape') this.end();
        else return false;
        return true;
    }
}
