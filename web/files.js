// Files in and out: a recording that is chosen or dropped, the glass as a PNG, the calls as a table. What is opened stays where it is; nothing is sent anywhere.

// `opened` is told the files and whether they are the second recording.
export function chooseFiles({ input, first, second, drop, opened }) {
    let other = false;
    const choose = (b) => {
        other = b;
        input.value = '';
        input.click();
    };
    first.addEventListener('click', () => choose(false));
    second.addEventListener('click', () => choose(true));
    input.addEventListener('change', () => input.files.length > 0 && opened([...input.files], other));
    let depth = 0; // of elements that were entered with something in hand
    const holds = (event) => event.dataTransfer?.types.includes('Files');
    const over = (by) => (event) => {
        if (!holds(event)) return;
        event.preventDefault();
        depth = Math.max(0, depth + by);
        drop.hidden = depth === 0;
    };
    addEventListener('dragenter', over(1));
    addEventListener('dragleave', over(-1));
    addEventListener('dragover', (event) => holds(event) && event.preventDefault());
    addEventListener('drop', (event) => {
        if (!holds(event)) return;
        event.preventDefault();
        depth = 0;
        drop.hidden = true;
        if (event.dataTransfer.files.length > 0) opened([...event.dataTransfer.files], false);
    });
    return choose;
}

export function save(blob, name) {
    const link = document.createElement('a');
    link.href = URL.createObjectURL(blob);
    link.download = name;
    link.click();
    setTimeout(() => URL.revokeObjectURL(link.href), 10000);
}

export const stem = (name) => name.replace(/\.[^.]*$/, '') || 'recording';

export function savePicture(view, name) {
    view.canvas.toBlob((blob) => blob && save(blob, name), 'image/png');
}
