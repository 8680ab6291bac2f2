// What the page says, in whole sentences: what a call came to, and what is wrong with a file and where. The numbers' words and sentences are the library's own.

export const count = (n) => n.toLocaleString('en-GB');
export const many = (n, one, more = `${one}s`) => `${count(n)} ${n === 1 ? one : more}`;
export const hex = (word, bits) => word.toString(16).toUpperCase().padStart(bits === 16 ? 4 : 6, '0');

export function verdict(library, call) {
    return call.number === 0 ? library.word(0) : `refused ${call.number} ${library.word(call.number)}`;
}

export function sentence(library, call, i, all) {
    const where = `Call ${count(i + 1)} of ${count(all)}: ${call.kind}, ${many(call.size, 'byte')} from byte ${count(call.at)} on`;
    if (call.number !== 0) return `${where}, refused ${call.number} ${library.word(call.number)}: ${library.says(call.number)}. The glass shows what it showed before.`;
    if (call.kind === 'header') return `${where}, done. A header draws nothing.`;
    const tidied = call.cut > 0 ? ` The filter changed ${many(call.cut, 'code')} of it.` : '';
    return `${where}, done: it lists ${many(call.tiles, 'tile')}.${tidied}`;
}

// What a file is, where there is something to say about it: an answer of `Recording.read` and how many calls came before.
export function complaint(library, name, size, last, calls) {
    if (size === 0) return `${name} is empty: there is nothing to show.`;
    if (!last) return calls > 0 ? '' : `${name} has no call in it.`;
    const shown = calls > 0 ? ` The ${many(calls, 'call')} before ${calls === 1 ? 'is' : 'are'} shown.` : '';
    if (last.kind === 'rest') {
        const inside = calls > 0 ? `${name} ends inside a block or frame` : `${name} is no RemoteFX recording, or ends inside its first block`;
        return `${inside}: ${many(last.size, 'byte')} from byte ${count(last.at)} on are not a whole one.${shown}`;
    }
    const said = `refused ${last.number} ${library.word(last.number)}`;
    if (last.number === 13) {
        return `${name} has a block or frame at byte ${count(last.at)} that is longer than ${count(library.store)} bytes, the most that this page takes (${said}).${shown}`;
    }
    if (calls === 0) return `${name} is no RemoteFX recording: what stands at its start is no block of one (${said}: ${library.says(last.number)}).`;
    return `${name} is no RemoteFX recording from byte ${count(last.at)} on: what stands there is no block of one (${said}: ${library.says(last.number)}).${shown}`;
}

export function csv(library, recording) {
    const line = (call, i) => [i + 1, call.kind, call.number, library.word(call.number), call.tiles, call.size, call.at].join(',');
    const rows = recording.calls.map(line), last = recording.last;
    if (last) rows.push([recording.calls.length + 1, last.kind, last.number, last.kind === 'rest' ? 'not whole' : library.word(last.number), 0, last.size, last.at].join(','));
    return ['call,kind,number,word,tiles,bytes,at', ...rows, ''].join('\r\n');
}
