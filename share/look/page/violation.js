// What a violation was: who, by whom, which word, which load, what was lost.

class Violation {
    constructor(box, trace, attempts, program, go) {
        Object.assign(this, { box, trace, attempts, program, go });
    }

    // A button that goes to the state behind an event.
    event(place) {
        const text = `event ${place + this.trace.first}`;
        return element("button", { type: "button", class: "link-like", click: () => this.go(place + 1) }, text);
    }

    access(it, verb) {
        const [place, ...text] = this.program.source(it.pc).split(" ");
        const value = it.what === "change" ? `${it.values[0]} to ${it.values[1]}` : it.values[0];
        const named = this.program.symbol(it.address) ? `${this.program.name(it.address)} (${hex(it.address)})` : hex(it.address);
        return element("li", {}, `${verb} ${named}: ${value}, by `,
            element("code", {}, this.program.instruction(it.pc) || it.what), ` at ${this.program.name(it.pc)}${place ? `, ${place} ` : ""}`,
            place ? element("code", {}, text.join(" ")) : null, " in ", this.event(it.place));
    }

    show(it) {
        const commit = this.attempts.commits.find((other) => other.tid === it.tid);
        const reads = this.attempts.accesses(it.attempt, it, true).slice(0, 1);
        const stores = commit ? this.attempts.accesses(commit, it, false).slice(-1) : [];
        const address = this.trace.address(it.line);
        const holds = this.program.namesIn(address);
        const facts = [
            element("li", {}, `${wordsOf(it.words)} of line ${it.line}${holds ? ` (${holds})` : ""}, at ${hex(address)}`),
            ...stores.map((other) => this.access(other, `core ${it.by} stored`)),
            ...reads.map((other) => this.access(other, `core ${it.core} had read`)),
            element("li", {}, `lost: ${plural(it.lost, "instruction")}, from `, this.event(it.attempt.first), " to ", this.event(it.place),
                `; the core was ${it.phase}`),
        ];
        const head = element("p", {}, element("b", {}, `Core ${it.core} was violated by core ${it.by}`), `'s commit of TID ${it.tid}`,
            commit ? element("span", {}, ", in ", this.event(commit.last)) : "", ".");
        this.box.replaceChildren(head, element("ul", { "data-violation": it.place + this.trace.first }, ...facts));
    }

    clear() {
        this.box.replaceChildren(element("p", { class: "soft" }, this.attempts.violations.length
            ? "None is chosen. Click a red attempt in the timeline, press v for the next one, or choose one in the list."
            : "No attempt was violated."));
    }

    // The list of all violations, made when it is opened.
    list(details) {
        details.querySelector("summary").textContent = `All violations (${this.attempts.violations.length})`;
        details.addEventListener("toggle", () => {
            if (!details.open || details.querySelector("table")) return;
            const holds = (line) => this.program.namesIn(this.trace.address(line));
            const rows = this.attempts.violations.slice(0, 2000).map((it) => [this.event(it.place), `core ${it.core}`,
                `core ${it.by}, TID ${it.tid}`, `${it.line} ${holds(it.line)}`, wordsOf(it.words), it.lost]);
            details.append(table("Violations", ["event", "who", "by", "line", "words", "lost"], rows));
        });
    }
}
