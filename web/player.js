// A recording with its glass and its controls: the slider with the refused calls marked on it, a call back and on, play and pause. The list of calls is not here.

const FRAMES = 5; // calls a second at 1 time: a recording says nothing of time

// Drawn, since not every machine has letters for them.
const ICONS = {
    'First call': 'M4 5h2.5v14H4zM13 5v14L6.5 12zM20 5v14l-6.5-7z',
    'A call back': 'M15 5v14l-9-7zM16.5 5H19v14h-2.5z',
    Play: 'M7 4l13 8-13 8z',
    Pause: 'M6 5h4v14H6zM14 5h4v14h-4z',
    'A call on': 'M9 5v14l9-7zM5 5h2.5v14H5z',
    'Last call': 'M20 5h-2.5v14H20zM11 5v14l6.5-7zM4 5v14l6.5-7z',
};

function icon(b, name) {
    b.innerHTML = `<svg viewBox="0 0 24 24" aria-hidden="true"><path d="${ICONS[name]}"/></svg>`;
    b.title = name;
    b.setAttribute('aria-label', name);
}

function button(name, act) {
    const b = document.createElement('button');
    b.type = 'button';
    icon(b, name);
    b.addEventListener('click', act);
    return b;
}

export class Player {
    // `moved` is told when another call is shown, `speed` gives how many times as fast it plays.
    constructor(letter, view, bar, { moved, speed }) {
        Object.assign(this, { letter, view, bar, moved, speed, recording: null, at: -1, timer: 0, shown: -1 });
        this.slider = document.createElement('input');
        Object.assign(this.slider, { type: 'range', min: 0, max: 0, step: 1, value: 0 });
        this.slider.setAttribute('aria-label', `Call of recording ${letter}`);
        this.slider.addEventListener('input', () => this.go(Number(this.slider.value)));
        this.marks = document.createElement('canvas');
        this.marks.setAttribute('aria-hidden', 'true');
        this.place = document.createElement('output');
        this.playing = button('Play', () => this.toggle());
        this.playing.classList.add('play');
        const track = document.createElement('div');
        track.className = 'track';
        track.append(this.marks, this.slider);
        bar.append(
            button('First call', () => this.go(0)), button('A call back', () => this.go(this.at - 1)), this.playing,
            button('A call on', () => this.go(this.at + 1)), button('Last call', () => this.go(Infinity)), track, this.place,
        );
        new ResizeObserver(() => this.draw()).observe(track);
        matchMedia('(prefers-color-scheme: dark)').addEventListener('change', () => this.draw());
    }
    get count() { return this.recording?.calls.length ?? 0; }
    get call() { return this.recording?.calls[this.at]; }
    // Another recording; the glass stays until the first of its calls is shown.
    take(recording) {
        this.pause();
        Object.assign(this, { recording, at: -1, follow: true });
        this.draw();
    }
    // Goes to a call; the glass is shown when it is there.
    async go(i, byHand = true) {
        if (this.count === 0) return;
        if (byHand) this.follow = false;
        const recording = this.recording, to = Math.max(0, Math.min(this.count - 1, i));
        this.at = to;
        this.draw();
        await recording.goTo(to);
        if (recording !== this.recording || to !== this.at) return; // somebody went elsewhere meanwhile
        this.shown = this.at;
        this.view.show(recording.shower.keep());
        this.moved(this);
    }
    // While it is being read, the glass follows; at the end it stays on the last call.
    async read() {
        if (this.follow && this.recording.whole) return this.go(Infinity, false);
        if (!this.follow) return this.draw();
        const newest = this.recording.newest();
        this.at = newest.at;
        this.draw();
        this.view.show(newest);
    }
    refusedFrom(step) {
        const list = this.recording?.refused ?? [];
        const to = step > 0 ? list.find((k) => k > this.at) : list.findLast((k) => k < this.at);
        if (to !== undefined) return this.go(to);
    }
    toggle() { return this.timer ? this.pause() : this.play(); }
    pause() {
        clearTimeout(this.timer);
        this.timer = 0;
        this.say();
    }
    async play() {
        if (this.count === 0) return;
        this.timer = -1;
        this.say();
        if (this.at === this.count - 1) await this.go(0);
        let due = performance.now();
        const turn = async () => {
            const pause = 1000 / (FRAMES * this.speed());
            const steps = Math.max(1, Math.floor((performance.now() - due) / pause)); // what the screen cannot show is passed over
            due = Math.max(due + steps * pause, performance.now() - pause);
            await this.go(this.at + steps);
            if (!this.timer) return;
            if (this.at === this.count - 1) return this.pause();
            this.timer = setTimeout(turn, Math.max(0, due + pause - performance.now()));
        };
        this.timer = setTimeout(turn, 1000 / (FRAMES * this.speed()));
    }
    say() {
        icon(this.playing, this.timer ? 'Pause' : 'Play');
    }
    draw() {
        const last = Math.max(0, this.count - 1);
        this.slider.max = last;
        this.slider.value = Math.max(0, this.at);
        const words = this.count === 0 ? 'no call' : `${this.at + 1} of ${this.count}`;
        this.place.value = this.letter === 'A' && !document.body.classList.contains('both') ? words : `${this.letter}: ${words}`;
        this.slider.setAttribute('aria-valuetext', words);
        const { clientWidth: wide, clientHeight: high } = this.marks, density = devicePixelRatio || 1;
        if (wide === 0) return;
        this.marks.width = wide * density;
        this.marks.height = high * density;
        const pen = this.marks.getContext('2d'), thumb = 8; // half a thumb: the slider's ends stand that far in
        pen.scale(density, density);
        pen.fillStyle = getComputedStyle(this.marks).color;
        for (const k of this.recording?.refused ?? []) pen.fillRect(thumb + (last ? (k / last) * (wide - 2 * thumb) : 0) - 1, 0, 2, high);
    }
}
