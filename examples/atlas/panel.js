// Small helps for the controls beside the picture.

export const element = (id) => document.getElementById(id);

/** Sets a text, where it is another. */
export function say(id, text) {
    if (element(id).textContent !== text) element(id).textContent = text;
}

/** A new element with these properties and children. */
export function made(kind, properties = {}, ...children) {
    const one = Object.assign(document.createElement(kind), properties);
    one.append(...children);
    return one;
}

/** Says under an input what is wrong with it; an empty text takes that back. */
export function refuse(input, note, text) {
    say(note, text);
    if (text) element(input).setAttribute("aria-invalid", "true");
    else element(input).removeAttribute("aria-invalid");
}

/** Sets attributes of the page that others wait for. */
export function mark(data) {
    for (const [name, value] of Object.entries(data)) if (document.body.dataset[name] !== value) document.body.dataset[name] = value;
}

/** What the browser remembers of this page, where it may. */
export function remembered(use) {
    try {
        return use(window.localStorage);
    } catch {
        return null;
    }
}
