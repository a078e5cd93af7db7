// The panels of the nodes: of a core its phase, instruction, registers and cache; of a directory what it serves and its lines; the bus.

class Nodes {
    constructor(box, trace, attempts, program) {
        Object.assign(this, { box, trace, attempts, program, cards: new Map(), opened: new Map() });
        const names = trace.bus ? ["bus"] : [...Array.from({ length: trace.settings.dirs }, (_, at) => "d" + at), "v"];
        for (const name of [...Array.from({ length: trace.settings.cores }, (_, at) => "c" + at), ...names]) {
            const body = element("div");
            const card = element("section", { class: "card", "data-node": name, "aria-label": nodeName(name) }, body);
            this.cards.set(name, { card, body, shown: null });
            box.append(card);
        }
    }

    // Shows a state, that after so many events. `acting` is the node whose event was the last.
    show(state, places, acting) {
        for (const [name, it] of this.cards) {
            it.card.classList.toggle("acting", name === acting);
            const phase = name[0] === "c" ? this.attempts.phaseAfter(Number(name.slice(1)), places) : "";
            const now = `${state.version(name)} ${phase}`;
            if (now === it.shown) continue;
            it.shown = now;
            const records = state.records(name);
            const tell = { c: () => this.core(name, records, phase), b: () => this.bus(records), v: () => this.vendor(records) };
            const parts = (tell[name[0]] || (() => this.directory(name, records)))();
            it.body.replaceChildren(...parts.filter((part) => part));
        }
    }

    // A part that opens; it stays as the reader left it.
    part(name, title, open, ...children) {
        const key = name + title.replace(/\d+/g, "");
        const isOpen = this.opened.has(key) ? this.opened.get(key) : open;
        const made = element("details", isOpen ? { open: "" } : {}, element("summary", {}, title), ...children);
        made.addEventListener("toggle", () => this.opened.set(key, made.open));
        return made;
    }

    core(name, records, phase) {
        const by = (kind) => records.filter((it) => it.startsWith(kind + " ")).map((it) => it.split(" "));
        const [core] = by("core");
        const badge = element("span", { class: "phase " + phase.split(" ")[0], "data-phase": phase }, phase);
        const head = element("h3", {}, nodeName(name) + " ", badge);
        if (!core) return [head, element("p", { class: "soft" }, this.trace.noRecords)];
        const pc = parseInt(core[5], 16);
        const notes = [];
        for (const it of by("awaits")) notes.push(`waits for line ${it[3]}${it[5] === "1" ? ", stale" : ""}`);
        for (const it of by("ended")) notes.push(`has ended its transaction: ${it.slice(2).join(" ")}`);
        for (const it of by("owing")) notes.push(`directories that owe a reply: ${it.slice(2).join(", ")}`);
        for (const it of by("reserved")) notes.push(`reservation at ${this.program.name(parseInt(it[2], 16))}`);
        const where = [this.program.symbol(pc) ? this.program.name(pc) : "", this.program.source(pc)].join(" ").trim();
        return [head,
            element("p", { class: "code" }, element("span", { "data-pc": core[5] }, core[5]), ` ${this.program.instruction(pc)} `,
                element("span", { class: "soft" }, where)),
            element("p", {}, `${plural(Number(core[3]), "instruction")} in this attempt`, notes.length ? `; ${notes.join("; ")}` : ""),
            this.registers(name, by("reg"), by("saved")), this.cache(name, by("frame")), this.spilled(name, by("spilled"))];
    }

    registers(name, now, saved) {
        const checkpoint = new Map(saved.map((it) => [it[2], it[3]]));
        const values = new Map(now.map((it) => [it[2], it[3]]));
        const both = new Set([...values.keys(), ...checkpoint.keys()]);
        const numbers = [...both].filter((it) => it !== "pc").sort((one, other) => one - other);
        const items = numbers.map((it) => {
            const [value, old] = [values.get(it) || "00000000", checkpoint.get(it) || "00000000"];
            return element("li", {}, element("span", { class: "soft" }, `x${it} ${REGISTERS[it]} `),
                element("code", { "data-register": it }, value),
                value === old ? null : element("span", { class: "soft" }, ` was ${old}`));
        });
        const pc = parseInt(checkpoint.get("pc"), 16);
        return this.part(name, `Registers (${numbers.length} not 0)`, this.trace.settings.cores <= 4,
            element("p", { class: "soft" }, `The checkpoint is at ${this.program.name(pc)}; “was” is what it has.`),
            element("ul", { class: "registers" }, ...items));
    }

    words(words, masks) {
        return element("span", { class: "words" }, ...words.map((it, at) => {
            const marks = Object.entries(masks).filter(([, mask]) => (mask >> at) & 1).map(([mark]) => mark);
            const sign = marks.map((mark) => mark[0]).join("");
            const kind = ["word", ...marks, it === "-" ? "absent" : ""].join(" ").trim();
            return element("span", { class: kind, title: marks.join(", ") || null },
                it === "-" ? "–" : it, sign ? element("sup", {}, sign) : null);
        }));
    }

    holds(line) {
        return this.program.namesIn(this.trace.address(line)) || hex(this.trace.address(line));
    }

    cache(name, frames) {
        const rows = frames.map((w) => {
            const masks = { read: Number(w[9]), modified: Number(w[11]), dirty: Number(w[13]) };
            const cell = element("span", { "data-frame": w.slice(1, 16).join(" ") }, w[2] + "/" + w[3]);
            return [cell, `${w[5]} ${this.holds(Number(w[5]))}`, w[15], this.words(w.slice(17), masks)];
        });
        return this.part(name, `Cache (${plural(frames.length, "frame")})`, this.trace.settings.cores <= 8,
            table("Words: r read, m modified, d dirty, – not valid", ["set/way", "line", "tag", "words"], rows));
    }

    spilled(name, words) {
        if (!words.length) return null;
        return this.part(name, `Spilled words (${words.length})`, true,
            table("Stored words outside the cache", ["word", "value"], words.map((it) => [this.program.name(parseInt(it[2], 16)), it[3]])));
    }

    vendor(records) {
        const next = records.length ? records[0].split(" ")[2] : "1";
        return [element("h3", {}, "the vendor"), element("p", {}, "the next TID is ", element("b", { "data-next": next }, next))];
    }

    directory(name, records) {
        const by = (kind) => records.filter((it) => it.startsWith(kind + " ")).map((it) => it.split(" "));
        const [dir] = by("dir");
        const skips = by("skips").map((it) => it[2]);
        const rows = by("line").map((w) => {
            const line = element("span", { "data-line": w.slice(1).join(" ") }, w[1]);
            const mark = w[11] === "0" ? "" : wordsOf(Number(w[11]));
            return [line, this.holds(Number(w[1])), w[5], w[7], w[9] === "1" ? "yes" : "no", mark, w.slice(13).join(" ")];
        });
        const home = by("home").map((w) => [this.program.name(parseInt(w[1], 16)), w[2]]);
        if (!dir) return [element("h3", {}, nodeName(name)), element("p", { class: "soft" }, this.trace.noRecords)];
        const text = element("p", {}, "serves TID ", element("b", { "data-serves": dir[3] }, dir[3]),
            `; ${plural(Number(dir[5]), "acknowledgement")} owed`, skips.length ? `; skipped: ${skips.join(", ")}` : "");
        const heads = ["line", "holds", "owner", "tag", "asked", "mark", "sharers"];
        return [element("h3", {}, nodeName(name)), text,
            this.part(name, `Lines (${rows.length})`, true, table("Lines at home here", heads, rows)),
            this.part(name, `Home words that changed (${home.length})`, false,
                table("Home words that aren't as loaded", ["word", "value"], home))];
    }

    bus(records) {
        const by = (kind) => records.filter((it) => it.startsWith(kind + " ")).map((it) => it.split(" "));
        const [arbiter] = by("arbiter");
        if (!arbiter) return [element("h3", {}, "the bus"), element("p", { class: "soft" }, this.trace.noRecords)];
        const cores = arbiter.slice(4).map((it) => "core " + it).join(", ");
        const state = { free: "free", alone: `${cores} has it alone`, left: `a packet is out; it is to be taken by ${cores}` }[arbiter[3]];
        const packet = by("packet").map((w) => [`${w[1]} ${this.holds(Number(w[1]))}`, this.words(w.slice(5), {})]);
        const memory = by("mem").map((w) => [this.program.name(parseInt(w[1], 16)), w[2]]);
        return [element("h3", {}, "the bus"), element("p", {}, `the next TID is ${arbiter[2]}; ${state}`),
            packet.length ? table("The packet that is out", ["line", "words"], packet) : null,
            this.part("bus", `Memory that changed (${memory.length})`, false,
                table("Words that aren't as loaded", ["word", "value"], memory))];
    }
}
