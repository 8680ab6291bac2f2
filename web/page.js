// The page: one recording or two, the glass of each, and what each call came to. The other modules do the work; here they meet, and main.js hands on what is asked
// by button, pointer and key.

import { Recording } from './recording.js';
import { View } from './view.js';
import { Player } from './player.js';
import { Two } from './two.js';
import { Pixel } from './pixel.js';
import { Lines, cell } from './list.js';
import { complaint, count, many, sentence, verdict } from './texts.js';

export const el = (id) => document.getElementById(id);

export class Page {
    constructor(library) {
        this.library = library;
        this.pixel = new Pixel(el('pixel'));
        const tools = { moved: (player) => this.moved(player), speed: () => Number(el('speed').value) };
        [this.a, this.b] = ['a', 'b'].map((x) => {
            const view = new View(el(`view-${x}`), library.facts.tile, (place) => this.pixel.cursor || this.pixel.tell(this[x], place));
            return new Player(x.toUpperCase(), view, el(`bar-${x}`), tools);
        });
        this.active = this.listed = this.a;
        this.zoom = 'fit';
        this.list = new Lines(el('calls'), { fill: (line, i) => this.line(line, i), choose: (k) => this.listed.go(this.shown[k] ?? k) });
        this.two = new Two(library, this.a, this.b, { list: el('differ'), sum: el('differ-sum'), detail: el('differ-detail'), views: el('views') });
        this.shown = [];
    }

    // ---- files

    // Opens a file for a player. One in which there is no call leaves what is shown as it is, and a sentence says why.
    async open(player, file, name) {
        const options = { bits: Number(el('bits').value), sender: Number(el('sender').value || 0) };
        let recording;
        try {
            recording = await Recording.open(this.library, file, name, options);
            player.coming?.close();
            player.coming = recording;
            const taken = () => {
                if (player.recording === recording || recording.calls.length === 0 || recording.gone) return;
                player.recording?.close();
                player.take(recording);
                this.arrange();
            };
            const last = await recording.read(() => {
                taken();
                if (player.recording === recording) this.read(player);
            });
            if (recording.gone) return;
            this.say(complaint(this.library, name, file.size, last, recording.calls.length));
            await recording.goTo(recording.want);
        } catch (fault) {
            this.say(`${name} cannot be read: ${fault.message}`);
        }
    }
    async opened(files, other) {
        await this.open(other ? this.b : this.a, files[0], files[0].name);
        if (!other && files.length > 1) await this.open(this.b, files[1], files[1].name);
    }
    // The same recordings on another glass, or of another sender.
    async anew() {
        for (const player of [this.a, this.b]) {
            const old = player.recording, at = player.at;
            if (!old) continue;
            await this.open(player, old.file, old.name);
            await player.go(at);
        }
    }
    endTwo() {
        this.b.recording?.close();
        this.b.take(null);
        this.b.view.show({ wide: 0, high: 0, words: [] });
        this.a.view.outline([], 'differ');
        this.a.view.outline([], 'chosen');
        this.arrange();
    }
    say(text, bad = true) {
        el('note').textContent = text;
        el('note').classList.toggle('bad', bad && text !== '');
    }

    // ---- what is shown

    // One recording or two.
    arrange() {
        const two = this.two.on;
        document.body.classList.toggle('both', two);
        for (const part of document.querySelectorAll('.two, #view-b, #bar-b, #close-b')) part.hidden = !two;
        document.querySelector('.one').hidden = two;
        if (!two) [this.active, this.listed] = [this.a, this.a];
        this.tab(two ? this.tabbed ?? 'd' : 'a');
        this.two.show(this.two.way);
        this.fit();
        for (const player of [this.a, this.b]) player.draw();
    }
    tab(which) {
        this.tabbed = this.two.on ? which : undefined;
        for (const x of ['a', 'b', 'd']) el(`tab-${x}`).setAttribute('aria-selected', x === which);
        el('sheet').hidden = which === 'd';
        el('differing').hidden = which !== 'd';
        if (which !== 'd') this.listed = this[which];
        this.fill();
        this.two.list.draw();
    }
    async read(player) {
        await player.read();
        if (this.zoom === 'fit') this.fit();
        this.caption(player);
        if (player === this.listed) this.fill();
    }
    fit() {
        for (const { view } of [this.a, this.b]) view.resize(this.zoom === 'fit' ? view.fitting() : this.zoom);
        const zoom = this.a.view.zoom;
        el('zoom').value = zoom < 1 ? `${Math.round(100 * zoom)} %` : `${zoom} ×`;
    }
    magnify(by) {
        const zoom = this.a.view.zoom, steps = [1, 2, 3, 4, 5, 6, 7, 8];
        this.zoom = by > 0 ? steps.find((z) => z > zoom) ?? 8 : steps.findLast((z) => z < zoom) ?? 1;
        this.fit();
    }
    caption({ letter, view, recording }) {
        if (!recording) return;
        const size = view.wide > 0 ? `${view.wide} × ${view.high}` : 'no size yet';
        view.caption.textContent = `${this.two.on ? `${letter}: ` : ''}${recording.name}  ·  ${size}`;
    }
    // Another call is shown.
    async moved(player) {
        this.active = player;
        this.caption(player);
        if (player === this.listed) this.fill();
        const other = player === this.a ? this.b : this.a;
        if (this.two.on && el('together').checked && other.at !== Math.min(player.at, other.count - 1) && !this.moving) {
            this.moving = true;
            await other.go(player.at).finally(() => { this.moving = false; });
            this.active = player;
        }
        this.outline(player);
        this.pixel.again(player);
        if (this.two.on && !this.moving) await this.two.compare();
    }
    async outline(player) {
        const { recording, at, view } = player, wanted = el('tiles').checked && !this.two.on;
        const { lines } = wanted && recording ? await recording.drawn(at) : { lines: [] };
        if (recording !== player.recording || at !== player.at) return;
        view.outline(lines, 'listed');
        view.box.dataset.outlined = at;
    }

    // ---- the list

    line(line, i) {
        const call = this.listed.recording.calls[i];
        line.classList.toggle('bad', call.number !== 0);
        cell(line, 'no', count(i + 1));
        cell(line, 'kind', call.kind);
        cell(line, 'said', verdict(this.library, call));
        cell(line, 'tiles', call.kind === 'frame' && call.number === 0 ? count(call.tiles) : '–');
        cell(line, 'bytes', count(call.size));
        cell(line, 'at', count(call.at));
        line.title = call.number ? this.library.says(call.number) : '';
    }
    fill() {
        const { recording, at } = this.listed, only = el('refused').checked;
        if (!recording) return;
        const all = recording.calls.length, bad = recording.refused.length;
        this.shown = only ? recording.refused : [];
        el('sum').textContent = `${many(all, 'call')}, ${bad === 0 ? 'none' : count(bad)} refused${recording.whole ? '' : `, ${Math.floor((100 * recording.done) / recording.file.size)} % read`}`;
        this.list.set(only ? bad : all, only ? (k) => this.shown[k] : (k) => k, only ? recording.refused : recording);
        this.list.mark(only ? this.shown.indexOf(at) : at, at >= 0);
        el('detail').textContent = at < 0 ? '' : sentence(this.library, recording.calls[at], at, all);
        el('detail').classList.toggle('bad', at >= 0 && recording.calls[at].number !== 0);
    }
}
