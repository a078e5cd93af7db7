// Messages in flight: arrows between the nodes, and a table of them.

class Messages {
    constructor(picture, list, trace) {
        Object.assign(this, { picture, list, trace });
        const { cores, dirs } = trace.settings;
        const right = [...Array.from({ length: dirs }, (_, at) => "d" + at), "v"];
        const step = Math.max(cores, right.length) > 16 ? 18 : 38;
        this.height = Math.max(cores, right.length) * step + 16;
        this.width = 760;
        this.at = new Map();
        const lay = (names, x) => {
            const step = (this.height - 16) / names.length;
            names.forEach((name, place) => this.at.set(name, [x, 8 + (place + 0.5) * step]));
        };
        lay(Array.from({ length: cores }, (_, at) => "c" + at), 96);
        lay(right, this.width - 110);
    }

    // Shows the messages of a state; `taken` is the name of the one that the last event took, and `sent` are those that it sent.
    show(messages, taken, sent) {
        const links = new Map();
        for (const it of messages) {
            const [from, to] = it.name.split(" ");
            const link = links.get(from + " " + to) || { from, to, kinds: [], fresh: false };
            link.kinds.push(it.text.split(" ")[0]);
            link.fresh = link.fresh || sent.has(it.name);
            links.set(from + " " + to, link);
        }
        const parts = [element("title", {}, `${plural(messages.length, "message")} in flight`), this.heads()];
        for (const [name, [x, y]] of this.at) {
            const left = name[0] === "c";
            parts.push(element("text", { x: left ? x - 10 : x + 10, y: y + 4, "text-anchor": left ? "end" : "start" }, nodeName(name)));
        }
        if (taken) {
            const [from, to] = taken.split(" ");
            parts.push(this.arrow(from, to, "taken", "", 0));
        }
        [...links.values()].forEach((it, at) => parts.push(this.arrow(it.from, it.to, it.fresh ? "fresh" : "", this.label(it.kinds), at)));
        this.picture.setAttribute("viewBox", `0 0 ${this.width} ${this.height}`);
        this.picture.replaceChildren(...parts);
        this.table(messages, sent);
    }

    heads() {
        const head = (id) => element("marker", { id, markerWidth: 8, markerHeight: 8, refX: 7, refY: 3, orient: "auto", class: id },
            element("path", { d: "M0 0L7 3L0 6z" }));
        return element("defs", {}, head("head"), head("head-fresh"), head("head-taken"));
    }

    label(kinds) {
        return kinds.length > 2 ? `${kinds.length} messages` : kinds.join(", ");
    }

    // The two directions of a pair lie side by side, each with its text near its source; texts of neighbours are a bit apart.
    arrow(from, to, kind, text, number) {
        const [x, y] = this.at.get(from);
        const [endX, endY] = this.at.get(to);
        const aside = from[0] === "c" ? -4 : 4;
        const near = 0.17 + 0.08 * (number % 4);
        return element("g", { class: "link " + kind },
            element("line", { x1: x, y1: y + aside, x2: endX, y2: endY + aside, "marker-end": `url(#head${kind ? "-" + kind : ""})` }),
            text ? element("text", { x: x + (endX - x) * near, y: y + aside + (endY - y) * near - 4, "text-anchor": "middle" }, text)
                : null);
    }

    table(messages, sent) {
        const shown = messages.slice(0, 300);
        const rows = shown.map((it) => {
            const [from, to, seq] = it.name.split(" ");
            const name = element("span", { "data-flight": `${it.name} ${it.text}` }, nodeName(from));
            return [name, nodeName(to), seq, it.text + (sent.has(it.name) ? " (new)" : "")];
        });
        const most = `The first ${shown.length} of ${messages.length} messages in flight`;
        const caption = messages.length > shown.length ? most : "Messages in flight";
        this.list.replaceChildren(table(caption, ["from", "to", "number", "message"], rows));
    }
}
