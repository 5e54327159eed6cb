
// Elements of the page.

/** The element of an id. */
export const at = id => document.getElementById(id);

/** Makes an element with attributes, and children that are elements or text. */
export function make(tag, attributes, ...children) {
    const made = document.createElement(tag);
    for (const [name, value] of Object.entries(attributes)) made.setAttribute(name, value);
    made.append(...children);
    return made;
}

/** Makes an element of a picture. */
export function draw(tag, attributes, ...children) {
    const made = document.createElementNS("http://www.w3.org/2000/svg", tag);
    for (const [name, value] of Object.entries(attributes)) made.setAttribute(name, String(value));
    made.append(...children);
    return made;
}

/** Makes a table: its caption, its heads, and its rows of cells. */
export function table(caption, heads, rows) {
    const head = make("tr", {}, ...heads.map(it => make("th", { scope: "col" }, it)));
    const body = rows.map(cells => make("tr", {}, ...cells.map(it => make("td", {}, it))));
    const made = make("table", {}, make("caption", {}, caption), make("thead", {}, head), make("tbody", {}, ...body));
    return make("div", { class: "wide" }, made);
}

/** A number with its thousands apart. */
export const number = n => n.toLocaleString("en");

/** A number of things. */
export const count = (n, thing) => `${number(n)} ${thing}${n === 1 ? "" : "s"}`;
