// Drives a headless Chromium over its own pipe (the protocol of its developer tools, messages with a zero byte between them): no package and no port.

import { spawn } from 'node:child_process';
import { mkdtempSync, rmSync } from 'node:fs';
import { tmpdir } from 'node:os';
import { join } from 'node:path';

export class Chromium {
    static async start(program) {
        const room = mkdtempSync(join(tmpdir(), 'xurbalenz-web-'));
        const words = ['--headless=new', '--remote-debugging-pipe', '--no-sandbox', '--disable-gpu', '--no-first-run', '--disable-background-networking', '--disable-component-update',
            '--disable-sync', '--hide-scrollbars', '--force-color-profile=srgb', '--enable-precise-memory-info', `--user-data-dir=${room}`, 'about:blank'];
        const child = spawn(program, words, { stdio: ['ignore', 'ignore', 'pipe', 'pipe', 'pipe'] });
        const self = new Chromium(child, room);
        const { targetInfos } = await self.ask('Target.getTargets');
        const { targetId } = targetInfos.find((target) => target.type === 'page') ?? (await self.ask('Target.createTarget', { url: 'about:blank' }));
        self.session = (await self.ask('Target.attachToTarget', { targetId, flatten: true })).sessionId;
        for (const domain of ['Page', 'Runtime', 'Network', 'Log', 'DOM']) await self.ask(`${domain}.enable`);
        return self;
    }
    constructor(child, room) {
        Object.assign(this, { child, room, next: 1, waiting: new Map(), requests: [], faults: [], said: '' });
        let held = '';
        child.stdio[4].setEncoding('utf8');
        child.stdio[4].on('data', (text) => {
            const parts = (held + text).split('\0');
            held = parts.pop();
            parts.forEach((part) => this.take(JSON.parse(part)));
        });
        child.stderr.on('data', (text) => { this.said += text; });
        child.on('exit', () => this.waiting.forEach(({ no }) => no(new Error(`Chromium ended: ${this.said.slice(-500)}`))));
    }
    take({ id, result, error, method, params }) {
        if (id) {
            const { yes, no } = this.waiting.get(id);
            this.waiting.delete(id);
            return error ? no(new Error(error.message)) : yes(result);
        }
        if (method === 'Network.requestWillBeSent') this.requests.push(params.request.url);
        if (method === 'Runtime.exceptionThrown') this.faults.push(params.exceptionDetails.exception?.description ?? params.exceptionDetails.text);
        if (method === 'Log.entryAdded' && params.entry.level === 'error') this.faults.push(params.entry.text);
        if (method === 'Runtime.consoleAPICalled' && params.type === 'error') this.faults.push(params.args.map((a) => a.value).join(' '));
    }
    ask(method, params = {}, session = this.session) {
        const id = this.next++;
        this.child.stdio[3].write(JSON.stringify({ id, method, params, ...(session ? { sessionId: session } : {}) }) + '\0');
        return new Promise((yes, no) => this.waiting.set(id, { yes, no }));
    }
    browser(method, params) { return this.ask(method, params, null); }
    // What an expression comes to in the page; a promise is waited for.
    async value(expression) {
        const { result, exceptionDetails } = await this.ask('Runtime.evaluate', { expression, awaitPromise: true, returnByValue: true });
        if (exceptionDetails) throw new Error(exceptionDetails.exception?.description ?? exceptionDetails.text);
        return result.value;
    }
    async until(expression, milliseconds = 15000) {
        for (const end = Date.now() + milliseconds; Date.now() < end; await new Promise((done) => setTimeout(done, 15))) {
            const value = await this.value(expression);
            if (value) return value;
        }
        throw new Error(`not within ${milliseconds} ms: ${expression}`);
    }
    async open(url) {
        await this.ask('Page.navigate', { url });
        await this.until('document.body?.dataset.ready');
    }
    async key(key, shift = false) {
        const words = { key, text: key.length === 1 ? key : undefined, modifiers: shift ? 8 : 0, code: key.length === 1 ? undefined : key };
        await this.ask('Input.dispatchKeyEvent', { type: 'keyDown', ...words });
        await this.ask('Input.dispatchKeyEvent', { type: 'keyUp', ...words });
    }
    // Gives files to the page's own input, as if they had been chosen.
    async give(button, files) {
        const { root } = await this.ask('DOM.getDocument');
        const { nodeId } = await this.ask('DOM.querySelector', { nodeId: root.nodeId, selector: '#file' });
        await this.value(`document.getElementById('file').click = () => {}; document.getElementById('${button}').click()`);
        await this.ask('DOM.setFileInputFiles', { nodeId, files });
    }
    async look({ width = 1280, height = 800, dark = false, mobile = false } = {}) {
        await this.ask('Emulation.setDeviceMetricsOverride', { width, height, deviceScaleFactor: 1, mobile });
        await this.ask('Emulation.setEmulatedMedia', { features: [{ name: 'prefers-color-scheme', value: dark ? 'dark' : 'light' }] });
        await this.value('new Promise((done) => requestAnimationFrame(() => requestAnimationFrame(done)))');
    }
    async picture() {
        return Buffer.from((await this.ask('Page.captureScreenshot', { format: 'png' })).data, 'base64');
    }
    async end() {
        const gone = new Promise((done) => this.child.once('exit', done));
        this.browser('Browser.close').catch(() => {}); // what is asked last is not always answered
        const late = setTimeout(() => this.child.kill('SIGKILL'), 5000);
        await gone;
        clearTimeout(late);
        rmSync(this.room, { recursive: true, force: true, maxRetries: 10, retryDelay: 100 });
    }
}
