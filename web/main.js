// Where the page begins: the library out of the page's own text, the demonstration, and what buttons, keys and the size of the window ask for.

import { Library } from './calls.js';
import { Page, el } from './page.js';
import { chooseFiles, save, savePicture, stem } from './files.js';
import { csv } from './texts.js';

const raw = (id) => Uint8Array.from(atob(el(id).textContent.trim()), (c) => c.charCodeAt(0));

// Where something was not foreseen a sentence says so, and the page goes on.
function guard(say) {
    const told = (event) => {
        event.preventDefault();
        say(`Something went wrong here that should not: ${event.reason?.message ?? event.message}. What is shown stays.`);
    };
    addEventListener('error', told);
    addEventListener('unhandledrejection', told);
}

function buttons(page, choose) {
    const click = (id, act) => el(id).addEventListener('click', act), change = (id, act) => el(id).addEventListener('change', act);
    click('close-b', () => page.endTwo());
    click('in', () => page.magnify(1));
    click('out', () => page.magnify(-1));
    click('fit', () => keys['0'](page));
    click('help', () => {
        el('keys').hidden = !el('keys').hidden;
        el('help').setAttribute('aria-expanded', !el('keys').hidden);
        page.fit();
    });
    click('save-png', () => page.active.view.wide > 0 && savePicture(page.active.view, `${stem(page.active.recording.name)}-call-${page.active.at + 1}.png`));
    click('save-csv', () => {
        const { recording } = page.listed;
        if (recording) save(new Blob([csv(page.library, recording)], { type: 'text/csv' }), `${stem(recording.name)}-calls.csv`);
    });
    for (const x of ['a', 'b', 'd']) click(`tab-${x}`, () => page.tab(x));
    change('bits', () => page.anew());
    change('sender', () => page.anew());
    change('tiles', () => page.outline(page.a));
    change('refused', () => page.fill());
    change('together', () => el('together').checked && page.moved(page.active));
    for (const way of document.querySelectorAll('[name=way]')) way.addEventListener('change', () => page.two.show(way.value));
    addEventListener('resize', () => page.fit());
    const ports = [page.a.view.port, page.b.view.port]; // two glasses are scrolled together
    for (const [from, to] of [ports, [...ports].reverse()]) {
        from.addEventListener('scroll', () => page.two.on && Object.assign(to, { scrollLeft: from.scrollLeft, scrollTop: from.scrollTop }));
    }
    keys.o = () => choose(false);
}

const check = (id) => el(id).click();
const keys = {
    ArrowLeft: (page) => page.active.go(page.active.at - 1),
    ArrowRight: (page) => page.active.go(page.active.at + 1),
    Home: (page) => page.active.go(0),
    End: (page) => page.active.go(Infinity),
    ' ': (page) => page.active.toggle(),
    n: (page) => page.active.refusedFrom(1),
    p: (page) => page.active.refusedFrom(-1),
    r: () => check('refused'),
    t: () => check('tiles'),
    i: (page) => page.pixel.start(page.active),
    b: (page) => page.two.on && document.querySelector(`[name=way]:not(:checked)`).click(),
    '+': (page) => page.magnify(1),
    '=': (page) => page.magnify(1),
    '-': (page) => page.magnify(-1),
    0: (page) => Object.assign(page, { zoom: 'fit' }).fit(),
};

function listen(page) {
    addEventListener('keydown', (event) => {
        if (event.ctrlKey || event.altKey || event.metaKey) return;
        if (page.pixel.key(event)) return event.preventDefault();
        const { tagName, type } = event.target, own = { INPUT: type === 'range', SELECT: true, BUTTON: event.key === ' ' }[tagName];
        if (own || (type === 'radio' && event.key.startsWith('Arrow')) || (type === 'checkbox' && event.key === ' ')) return; // the element's own keys
        const act = keys[event.key.length === 1 ? event.key.toLowerCase() : event.key];
        if (!act) return;
        event.preventDefault();
        act(page);
    });
}

async function start() {
    const say = (text) => Object.assign(el('note'), { textContent: text, className: 'bad' });
    guard(say);
    const library = await Library.open(raw('wasm'), JSON.parse(el('facts').textContent)).catch(() => null);
    if (!library) return say('The library cannot run in this browser: it needs one from 2023 or later.');
    const page = new Page(library);
    const opened = (files, other) => page.opened(files, other);
    el('sender').append(...library.senders.map((name, number) => new Option(name, number)));
    el('sender-box').hidden = library.senders.length < 2;
    buttons(page, chooseFiles({ input: el('file'), first: el('open-a'), second: el('open-b'), drop: el('drop'), opened }));
    listen(page);
    await page.open(page.a, new Blob([raw('demo')]), 'The demonstration');
    page.say('The demonstration: four headers and four frames, one of them damaged on the wire. Open a recording of your own, or drop it on this page.', false);
    document.body.dataset.ready = Math.round(performance.now());
    globalThis.page = page; // for the tests, and for whoever is curious
}

start();
