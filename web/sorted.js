
// Tables that are sorted by a column, and show some rows at a time.
import { make, number } from "./dom.js";

const ROWS_AT_A_TIME = 200;

// Compares two values of a column; one that is absent comes last.
function compare(one, other, sign) {
    if (one === other) return 0;
    if (one === null || other === null) return one === null ? 1 : -1;
    return one < other ? -sign : sign;
}

/**
 * A table. Each column has a head, a unit below it or none, a value of a row by which it is sorted, and what is shown of a row.
 * A row whose first cell is pressed is opened, if there is a function for it.
 */
export class SortedTable {
    constructor(caption, columns, opened = null) {
        this.columns = columns;
        this.opened = opened;
        this.rows = [];
        this.chosen = null;
        this.heads = columns.map((it, place) => this.head(it, place));
        this.body = make("tbody", {});
        this.pages = make("div", { class: "pages" });
        const whole = make("table", { "aria-label": caption }, make("thead", {}, make("tr", {}, ...this.heads)), this.body);
        this.window = make("div", { class: "wide rows", tabindex: "0", role: "group", "aria-label": caption }, whole);
        this.element = make("div", {}, make("p", { class: "help" }, caption), this.window, this.pages);
    }

    head(column, place) {
        const button = make("button", { type: "button", title: column.title ?? "" }, column.head);
        button.onclick = () => this.sort(place);
        const unit = column.unit ? [make("span", { class: "unit" }, column.unit)] : [];
        return make("th", { scope: "col", class: column.word ? "word" : "" }, button, ...unit);
    }

    /** Shows other rows, sorted as before. */
    show(rows) {
        this.rows = [...rows];
        this.order();
    }

    // Sorts by a column, and the other way if it is sorted by this one.
    sort(place) {
        this.sign = this.sorted === place ? -this.sign : 1;
        this.sorted = place;
        for (const it of this.heads) it.removeAttribute("aria-sort");
        this.heads[place].setAttribute("aria-sort", this.sign > 0 ? "ascending" : "descending");
        this.order();
    }

    order() {
        const column = this.columns[this.sorted];
        if (column) this.rows.sort((a, b) => compare(column.value(a), column.value(b), this.sign));
        this.page(0);
    }

    // Shows the rows from one on.
    page(first) {
        this.body.replaceChildren(...this.rows.slice(first, first + ROWS_AT_A_TIME).map(it => this.row(it)));
        this.window.scrollTop = 0;
        const end = Math.min(first + ROWS_AT_A_TIME, this.rows.length);
        this.pages.replaceChildren(...(this.rows.length > ROWS_AT_A_TIME ? this.turns(first, end) : []));
    }

    turns(first, end) {
        const turn = (words, to, isThere) => {
            const button = make("button", { type: "button", ...(isThere ? {} : { disabled: "" }) }, words);
            button.onclick = () => {
                this.page(to);
                this.window.focus();
            };
            return button;
        };
        const text = `Rows ${number(first + 1)} to ${number(end)} of ${number(this.rows.length)}. `;
        return [make("span", { role: "status" }, text), turn("Rows before", first - ROWS_AT_A_TIME, first > 0), turn("Rows after", end, end < this.rows.length)];
    }

    row(row) {
        const made = make("tr", row === this.chosen ? { class: "chosen" } : {});
        made.append(...this.columns.map((it, place) => this.cell(it, row, place === 0 ? made : null)));
        if (this.opened) made.onclick = event => (event.target.closest("button") ? null : this.open(row, made));
        return made;
    }

    // A cell; the first one of a row that can be opened is a button.
    cell(column, row, opens) {
        const shown = column.shown(row);
        const attributes = column.word ? { class: "word" } : {};
        if (!opens || !this.opened) return make("td", attributes, shown);
        const button = make("button", { type: "button", class: "row", "aria-label": column.label?.(row) ?? shown }, shown);
        button.onclick = () => this.open(row, opens);
        return make("th", { scope: "row", ...attributes }, button);
    }

    open(row, made) {
        this.chosen = row;
        for (const it of this.body.children) it.classList.toggle("chosen", it === made);
        this.opened(row);
    }
}

/** What the columns mean, to be opened. */
export function columnHelp(columns) {
    const terms = columns.filter(it => it.title).map(it => make("div", {}, make("dt", {}, it.head), make("dd", {}, `${it.title}.`)));
    return make("details", {}, make("summary", {}, "What the columns mean"), make("dl", { class: "facts" }, ...terms));
}

/** A column of numbers with a unit. */
export function numberColumn(head, unit, value, title = "") {
    return { head, unit, title, value, shown: row => (value(row) === null ? "-" : number(value(row))) };
}

/** A column of words. */
export function wordColumn(head, value, title = "") {
    return { head, title, value, word: true, shown: value };
}
