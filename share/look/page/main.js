// The page: reads the trace that is in it, and steps through the states.

class Page {
    constructor(trace, program) {
        Object.assign(this, { trace, program, at: 0, waiting: false, chosen: null });
        this.attempts = new Attempts(trace);
        this.states = new States(trace);
        const go = (places) => this.go(places);
        this.timeline = new Timeline(byId("timeline"), trace, this.attempts, program, (place, violation) => {
            this.chosen = violation;
            this.go(place + 1);
        });
        this.nodes = new Nodes(byId("nodes"), trace, this.attempts, program);
        this.messages = trace.bus ? null : new Messages(byId("flight"), byId("flights"), trace);
        this.violation = new Violation(byId("violation"), trace, this.attempts, program, go);
        this.search = new Search(byId("search"), byId("found"), trace, this.attempts, program, go);
        this.violation.list(byId("violations"));
        this.slider = byId("slider");
        this.number = byId("number");
        this.byPlace = new Map(this.attempts.violations.map((it) => [it.place, it]));
        if (trace.bus) byId("messages").remove();
        this.summary();
        this.listen();
        this.show();
    }

    summary() {
        const { cores, dirs, sets, ways } = this.trace.settings;
        const lost = this.attempts.violations.reduce((sum, it) => sum + it.lost, 0);
        const homes = this.trace.bus ? "one bus" : dirs === 1 ? "1 directory" : `${dirs} directories`;
        const text = `${plural(cores, "core")}, ${homes}, ${plural(sets, "set")} of `
            + `${plural(ways, "way")}; ${plural(this.trace.count, "event")}, ${plural(this.attempts.commits.length, "commit")}, `
            + `${plural(this.attempts.violations.length, "violation")}${lost ? ` that lost ${plural(lost, "instruction")}` : ""}; `
            + (this.trace.done ? "all is done at the end" : "the end is open");
        byId("summary").textContent = text;
        byId("timeline").setAttribute("aria-label", `Timeline: a row a core. ${text}. The list of violations says the same as text.`);
        for (const it of [this.slider, this.number]) {
            it.min = this.trace.first;
            it.max = this.trace.first + this.trace.count;
        }
    }

    listen() {
        this.slider.addEventListener("input", () => this.go(Number(this.slider.value) - this.trace.first));
        this.number.addEventListener("change", () => this.go(Number(this.number.value) - this.trace.first));
        for (const button of document.querySelectorAll("[data-do]")) button.addEventListener("click", () => this.act(button.dataset.do));
        document.addEventListener("keydown", (it) => this.key(it));
    }

    key(event) {
        const inField = event.target.matches("input:not([type=range]), textarea, select");
        if (event.key === "Escape" && inField) event.target.blur();
        if (inField || event.ctrlKey || event.metaKey || event.altKey) return;
        const doing = KEYS_OF_PAGE[event.key];
        if (!doing || (event.target.matches("button, summary") && (event.key === "Enter" || event.key === " "))) return;
        event.preventDefault();
        this.act(doing);
    }

    act(doing) {
        const places = (list) => list.map((it) => (it.place === undefined ? it.last : it.place) + 1);
        const next = (list) => places(list).filter((it) => it > this.at).reduce((one, other) => Math.min(one, other), Infinity);
        const before = (list) => places(list).filter((it) => it < this.at).reduce((one, other) => Math.max(one, other), -Infinity);
        const { violations, commits } = this.attempts;
        const acts = {
            next: () => this.go(this.at + 1),
            before: () => this.go(this.at - 1),
            "next-ten": () => this.go(this.at + 10),
            "before-ten": () => this.go(this.at - 10),
            "next-violation": () => this.go(next(violations), true),
            "before-violation": () => this.go(before(violations), true),
            "next-commit": () => this.go(next(commits), true),
            "before-commit": () => this.go(before(commits), true),
            first: () => this.go(0),
            last: () => this.go(this.trace.count),
            in: () => this.timeline.zoom(0.5),
            out: () => this.timeline.zoom(2),
            all: () => this.timeline.show(0, this.trace.count),
            search: () => byId("search").querySelector("input").focus(),
            keys: () => (byId("keys").open = !byId("keys").open),
        };
        acts[doing]();
    }

    // Goes to the state after so many events; with `only`, where there is such a place.
    go(places, only = false) {
        if (Number.isNaN(places) || (only && !Number.isFinite(places))) return;
        this.at = Math.min(Math.max(places, 0), this.trace.count);
        if (this.waiting) return;
        this.waiting = true;
        requestAnimationFrame(() => {
            this.waiting = false;
            this.show();
        });
    }

    show() {
        const { at, trace } = this;
        const state = this.states.after(at);
        const place = at - 1;
        const facts = at ? trace.facts(place) : [];
        this.nodes.show(state, at, at ? trace.node(place) : "");
        if (this.messages) {
            const took = facts.some((it) => it.startsWith("took ") || it.startsWith("dropped "));
            const sent = new Set(facts.filter((it) => it.startsWith("sent ")).map((it) => it.split(" ").slice(1, 4).join(" ")));
            this.messages.show(state.messages(), took ? trace.event(place).slice(2) : "", sent);
        }
        this.event(facts);
        this.showViolation(place);
        this.timeline.setCursor(at);
        this.slider.value = this.number.value = trace.first + at;
        this.slider.setAttribute("aria-valuetext", `after ${trace.first + at} events`);
        byId("records").textContent = trace.hasStates ? state.text().join("\n") : trace.noRecords;
        document.body.dataset.at = String(trace.first + at);
    }

    // The violation that the last event was; else the one that was clicked, as long as the last event is of its attempt.
    showViolation(place) {
        const { chosen } = this;
        const inside = chosen && place >= chosen.attempt.first && place <= chosen.attempt.last;
        if (this.byPlace.has(place)) this.violation.show(this.byPlace.get(place));
        else if (inside) this.violation.show(chosen);
        else this.violation.clear();
    }

    // What the last event did, and what comes next.
    event(facts) {
        const { at, trace, program } = this;
        const place = at - 1;
        const head = at ? element("p", {}, element("b", {}, `Event ${trace.first + place}: `), element("code", {}, trace.event(place)),
            ` (${nodeName(trace.node(place))})`) : element("p", {}, element("b", {}, "Before the first event"));
        const end = `The end: ${trace.done ? "all is done" : "open"}`;
        const next = at < trace.count ? `Next: event ${trace.first + at}, ${trace.event(at)}` : end;
        byId("event").replaceChildren(head, element("ul", {}, ...facts.map((it) => element("li", {}, tell(it, program)))),
            element("p", { class: "soft" }, next));
    }
}

const KEYS_OF_PAGE = { ArrowRight: "next", ArrowLeft: "before", PageDown: "next-ten", PageUp: "before-ten", v: "next-violation",
    V: "before-violation", c: "next-commit", C: "before-commit", Home: "first", End: "last", "+": "in", "-": "out", 0: "all",
    "/": "search", "?": "keys" };

async function unpack(text) {
    const packed = atob(text);
    const bytes = new Uint8Array(packed.length);
    for (let at = 0; at < packed.length; at++) bytes[at] = packed.charCodeAt(at);
    return new Response(new Blob([bytes]).stream().pipeThrough(new DecompressionStream("deflate"))).text();
}

async function open() {
    try {
        const trace = new Trace(await unpack(byId("trace").textContent.trim()));
        byId("trace").remove();
        window.page = new Page(trace, new Program(JSON.parse(byId("program").textContent)));
        byId("loading").remove();
        document.body.dataset.ready = String(Math.round(performance.now()));
    } catch (fault) {
        byId("loading").textContent = `The trace can't be shown: ${fault.message}`;
        throw fault;
    }
}

open();
