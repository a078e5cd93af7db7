// The search: for a TID, a line, an event, or a name of a function or datum. Each result is an event with what was found in it.

const MOST_RESULTS = 200;

class Search {
    constructor(form, list, trace, attempts, program, go) {
        Object.assign(this, { list, trace, attempts, program, go });
        form.addEventListener("submit", (it) => {
            it.preventDefault();
            this.run(form.querySelector("input").value.trim());
        });
    }

    run(text) {
        const found = this.find(text);
        const buttons = found.slice(0, MOST_RESULTS).map((it) => element("li", {}, element("button", { type: "button", class: "link-like",
            click: () => this.go(it.place + 1) }, `event ${it.place + this.trace.first}`), ` ${it.text}`));
        const count = found.length > MOST_RESULTS ? `more than ${MOST_RESULTS} places` : plural(found.length, "place");
        const status = element("p", { role: "status" }, text ? `${count} for “${text}”` : "");
        this.list.replaceChildren(status, element("ol", {}, ...buttons));
        this.list.dataset.found = found.length;
    }

    find(text) {
        const [, word, digits] = text.match(/^(tid|line|event)?\s*(\d+)$/i) || [];
        if (digits) {
            const number = Number(digits);
            const kind = (word || "").toLowerCase();
            if (kind === "event") return this.events(number);
            if (kind === "line") return this.lines((it) => `${it} `.includes(` line ${number} `) || this.touches(it, number));
            if (kind === "tid") return this.tid(number);
            return [...this.tid(number), ...this.events(number)];
        }
        return text ? this.names(text) : [];
    }

    events(number) {
        const place = number - this.trace.first;
        return place >= 0 && place < this.trace.count ? [{ place, text: this.trace.event(place) }] : [];
    }

    tid(number) {
        const said = new RegExp(` (tid|after|serving|tag|packet) ${number}( |$)|^(commit|gaveup) ${number} |^serves \\d+ ${number}$|`
            + ` (Probing|Ready|Overflowing|Solo) ${number}$`);
        return this.lines((it) => said.test(it));
    }

    touches(fact, line) {
        const found = fact.match(/^did \d+ [0-9a-f]{8} (?:load|store|change) ([0-9a-f]{8})/);
        return found !== null && this.trace.lineOf(parseInt(found[1], 16)) === line;
    }

    // The events with a fact of which `is` holds, with the first such fact.
    lines(is) {
        const found = [];
        for (let place = 0; place < this.trace.count && found.length <= MOST_RESULTS; place++) {
            const fact = this.trace.facts(place).find(is);
            if (fact) found.push({ place, text: tell(fact, this.program) });
        }
        return found;
    }

    // The events that execute a function of this name, from outside of it, or touch a datum of this name; else lines of the trace with
    // this text.
    names(text) {
        const ranges = this.program.symbols.filter((it) => it[2].includes(text)).map((it) => [it[0], it[0] + Math.max(it[1], 4)]);
        const inside = (address) => ranges.some(([from, to]) => address >= from && address < to);
        if (!ranges.length) return this.lines((it) => it.includes(text) || this.source(it).includes(text));
        const last = new Map();
        return this.lines((it) => {
            const w = it.split(" ");
            if (w[0] !== "did") return false;
            const before = last.get(w[1]);
            last.set(w[1], inside(parseInt(w[2], 16)));
            return (last.get(w[1]) && !before) || (w.length > 5 && inside(parseInt(w[4], 16)));
        });
    }

    source(fact) {
        return fact.startsWith("did ") ? this.program.source(parseInt(fact.split(" ")[2], 16)) : "";
    }
}
