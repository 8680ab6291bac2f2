// A list of any length of which only the lines that are seen stand in the page: the calls of a recording, or the tiles that differ. One line is chosen; arrow keys, Home,
// End and a click choose another.

const LINE = 28; // pixels, as style.css has it
const SPARE = 12; // lines above and below those that are seen

export class Lines {
    // `fill` makes the cells of a line from an item; `choose` is told which line was chosen.
    constructor(box, { fill, choose }) {
        Object.assign(this, { box, fill, choose, count: 0, chosen: -1, item: () => null });
        this.tall = document.createElement('div');
        this.tall.className = 'tall';
        box.append(this.tall);
        box.setAttribute('role', 'listbox');
        box.tabIndex = 0;
        box.addEventListener('scroll', () => this.draw());
        new ResizeObserver(() => this.draw()).observe(box);
        box.addEventListener('click', (event) => {
            const line = event.target.closest('[role=option]');
            if (line) this.choose(Number(line.dataset.line));
        });
        box.addEventListener('keydown', (event) => {
            const page = Math.max(1, Math.floor(box.clientHeight / LINE) - 1);
            const by = { ArrowDown: 1, ArrowUp: -1, PageDown: page, PageUp: -page, Home: -Infinity, End: Infinity }[event.key];
            if (by === undefined || this.count === 0) return;
            event.preventDefault();
            event.stopPropagation();
            this.choose(Math.max(0, Math.min(this.count - 1, this.chosen + by)));
        });
    }
    // `item` gives the item of a line; `what` says which list it is: lines of the same one are not made again.
    set(count, item, what) {
        if (count === this.count && what === this.what) return;
        if (what !== this.what) this.tall.replaceChildren();
        Object.assign(this, { count, item, what });
        this.tall.style.height = `${count * LINE}px`;
        this.draw();
    }
    mark(line, look = true) {
        if (line === this.chosen) return;
        this.chosen = line;
        if (look && line >= 0) {
            const top = line * LINE, seen = this.box.clientHeight;
            if (top < this.box.scrollTop) this.box.scrollTop = top;
            else if (top + LINE > this.box.scrollTop + seen) this.box.scrollTop = top + LINE - seen;
        }
        this.draw();
    }
    make(k) {
        const line = document.createElement('div');
        line.id = `${this.box.id}-${k}`;
        line.dataset.line = k;
        line.style.top = `${k * LINE}px`;
        line.setAttribute('role', 'option');
        line.setAttribute('aria-posinset', k + 1);
        this.fill(line, this.item(k), k);
        return line;
    }
    draw() {
        const first = Math.max(0, Math.floor(this.box.scrollTop / LINE) - SPARE);
        const last = Math.min(this.count, Math.ceil((this.box.scrollTop + this.box.clientHeight) / LINE) + SPARE);
        const there = new Map([...this.tall.children].map((line) => [Number(line.dataset.line), line])), lines = [];
        for (let k = first; k < last; k++) {
            const line = there.get(k) ?? this.make(k);
            line.setAttribute('aria-selected', k === this.chosen);
            line.setAttribute('aria-setsize', this.count);
            there.delete(k);
            if (!line.parentNode) lines.push(line);
        }
        for (const line of there.values()) line.remove();
        this.tall.append(...lines);
        if (this.chosen >= first && this.chosen < last) this.box.setAttribute('aria-activedescendant', `${this.box.id}-${this.chosen}`);
        else this.box.removeAttribute('aria-activedescendant');
    }
}

// A cell of a line.
export function cell(line, name, text) {
    const span = document.createElement('span');
    span.className = name;
    span.textContent = text;
    line.append(span);
    return span;
}
