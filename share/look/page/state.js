// The state after any number of events, as the trace's records say it: for each node its records by key, and the messages in flight.

const CORE_RECORDS = ["core", "reserved", "ended", "awaits", "owing", "last", "reg", "saved", "frame", "spilled"];
const DIR_RECORDS = ["dir", "skips", "line", "home"];
const BUS_RECORDS = ["arbiter", "packet", "mem"];
const KEYS = { core: 2, reserved: 2, ended: 2, awaits: 2, owing: 2, last: 3, reg: 3, saved: 3, frame: 4, spilled: 3, dir: 2, skips: 3,
    line: 2, home: 2, vendor: 1, flight: 4, arbiter: 1, packet: 2, mem: 2 };

// The first words of a record that name it.
function keyOf(word, record) {
    let at = 0;
    for (let count = KEYS[word]; count > 0; count--) {
        at = record.indexOf(" ", at + 1);
        if (at < 0) return record;
    }
    return record.slice(0, at);
}

let lastVersion = 0;

class State {
    constructor(trace) {
        this.trace = trace;
        this.nodes = new Map();
        this.flight = new Map();
        this.versions = new Map();
    }

    // Two states of which a node has the same version have the same records of it.
    version(name) {
        return this.versions.get(name) || 0;
    }

    copy() {
        const copy = new State(this.trace);
        for (const [name, records] of this.nodes) copy.nodes.set(name, new Map(records));
        copy.flight = new Map(this.flight);
        copy.versions = new Map(this.versions);
        return copy;
    }

    // The node whose record or key this is.
    owner(word, key) {
        const words = key.split(" ");
        if (word === "vendor") return "v";
        if (BUS_RECORDS.includes(word)) return "bus";
        if (word === "line") return "d" + (Number(words[1]) % this.trace.settings.dirs);
        if (word === "home") return "d" + (this.trace.lineOf(parseInt(words[1], 16)) % this.trace.settings.dirs);
        return (DIR_RECORDS.includes(word) ? "d" : "c") + words[1];
    }

    put(word, record) {
        if (word === "gone") {
            const key = record.slice(5);
            const owner = this.owner(key.split(" ")[0], key);
            if (this.nodes.has(owner)) this.nodes.get(owner).delete(key);
            this.versions.set(owner, ++lastVersion);
            return;
        }
        const key = keyOf(word, record);
        if (word === "flight") {
            this.flight.set(key.slice(7), record.slice(key.length + 1));
            return;
        }
        const owner = this.owner(word, key);
        let records = this.nodes.get(owner);
        if (!records) this.nodes.set(owner, (records = new Map()));
        records.set(key, record);
        this.versions.set(owner, ++lastVersion);
    }

    // Takes the event at this place.
    take(place) {
        this.trace.visitEvent(place, (word, line) => {
            if (word === "sent") this.sent(line);
            else if (word === "took" || word === "dropped") this.flight.delete(this.trace.event(place).slice(2));
            else if (!FACTS.has(word)) this.put(word, line);
        });
    }

    sent(line) {
        const words = line.split(" ", 4);
        if (words[1] === "Packet") return;
        const name = words.slice(1).join(" ");
        this.flight.set(name, line.slice(name.length + 6));
    }

    // A node's records in the order in which `state` prints them.
    records(name) {
        const records = this.nodes.get(name);
        if (!records) return [];
        const kinds = name[0] === "c" ? CORE_RECORDS : name[0] === "d" ? DIR_RECORDS : BUS_RECORDS;
        const number = (it) => (it === "pc" ? -1 : it.length === 8 ? parseInt(it, 16) : Number(it));
        const place = ([key]) => {
            const words = key.split(" ");
            return [kinds.indexOf(words[0]), ...words.slice(1).map(number)];
        };
        return [...records].map((it) => [place(it), it[1]]).sort(compareLists).map((it) => it[1]);
    }

    // The messages in flight in their order, each with its name and text.
    messages() {
        const word = (it) => ("cdv".includes(it[0]) ? ["cdv".indexOf(it[0]), Number(it.slice(1))] : [Number(it)]);
        const place = (name) => name.split(" ").flatMap(word);
        return [...this.flight].map(([name, text]) => [place(name), { name, text }]).sort(compareLists).map((it) => it[1]);
    }

    nodeNames() {
        const { cores, dirs } = this.trace.settings;
        const names = Array.from({ length: cores }, (_, at) => "c" + at);
        if (this.trace.bus) return [...names, "bus"];
        return [...names, ...Array.from({ length: dirs }, (_, at) => "d" + at), "v"];
    }

    // The records of `state`.
    text() {
        const lines = this.nodeNames().flatMap((it) => this.records(it));
        return [...lines, ...this.messages().map((it) => `flight ${it.name} ${it.text}`)];
    }
}

// Compares two pairs by their first part, a list of numbers.
function compareLists([one], [other]) {
    for (let at = 0; at < one.length && at < other.length; at++) if (one[at] !== other[at]) return one[at] - other[at];
    return one.length - other.length;
}

// States by number of events: some are kept, and the others made from the one before. Those that are kept are made when one behind them is
// asked for, or a part at a time while nothing else is to do.
class States {
    constructor(trace) {
        this.trace = trace;
        this.every = Math.max(500, Math.ceil(trace.count / 100));
        this.front = new State(trace);
        this.frontAt = 0;
        trace.visitStart((word, line) => this.front.put(word, line));
        this.kept = [this.front.copy()];
        this.now = this.front.copy();
        this.at = 0;
        setTimeout(() => this.goOn(), 50);
    }

    // Keeps states up to that after so many events.
    reach(places) {
        while (this.frontAt < places) {
            this.front.take(this.frontAt++);
            if (this.frontAt % this.every === 0) this.kept.push(this.front.copy());
        }
    }

    goOn() {
        if (this.frontAt === this.trace.count) return;
        this.reach(Math.min(this.frontAt + 2000, this.trace.count));
        setTimeout(() => this.goOn(), 0);
    }

    // The state after so many events. It changes with the next call.
    after(places) {
        if (places < this.at || places - this.at > this.every) {
            this.reach(places);
            const near = Math.floor(places / this.every);
            this.now = this.kept[near].copy();
            this.at = near * this.every;
        }
        while (this.at < places) this.now.take(this.at++);
        return this.now;
    }
}
