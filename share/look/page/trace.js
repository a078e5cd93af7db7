// The text of a trace: its settings, and where in it each event begins. Events are counted by their place in the text; the number of the
// event at place 0 is `first`.

class Trace {
    constructor(text) {
        const head = text.slice(0, 400).split("\n");
        const words = head[1].split(" ");
        this.text = text;
        this.bus = head[0] === "tcc-bus-trace 1";
        this.settings = {};
        for (let at = 0; at < words.length; at += 2) this.settings[words[at]] = Number(words[at + 1]);
        this.settings.dirs = this.settings.dirs || 0;
        this.first = Number(head[2].slice(5));
        this.body = head[0].length + head[1].length + head[2].length + 3;
        this.starts = this.findStarts();
        this.count = this.starts.length - 1;
        this.done = text.startsWith("end done", this.starts[this.count]);
        this.hasStates = text[this.body] === " ";
        this.noRecords = "The trace has no records: make it with --states.";
    }

    // The offset of each event's line, and behind them that of the line `end`.
    findStarts() {
        const starts = [];
        for (let at = this.body; at < this.text.length; at = this.text.indexOf("\n", at) + 1) {
            if (this.text.charCodeAt(at) === 32) continue;
            starts.push(at);
            if (this.text.startsWith("end ", at)) break;
        }
        return starts;
    }

    // The event's line, as in a schedule.
    event(place) {
        const at = this.starts[place];
        return this.text.slice(at, this.text.indexOf("\n", at));
    }

    // The node that acts.
    node(place) {
        const words = this.event(place).split(" ");
        return words[0] === "d" ? words[2] : "c" + words[1];
    }

    // Calls `visit` with the first word and the line of each fact and record between two offsets, without the line's space; with `letters`
    // only of those that begin with one of them (as codes).
    visit(at, end, visit, letters = null) {
        while (at < end) {
            const next = this.text.indexOf("\n", at);
            if (this.text.charCodeAt(at) === 32 && (letters === null || letters.has(this.text.charCodeAt(at + 1)))) {
                const space = this.text.indexOf(" ", at + 1);
                visit(this.text.slice(at + 1, space < next && space > 0 ? space : next), this.text.slice(at + 1, next));
            }
            at = next + 1;
        }
    }

    visitEvent(place, visit, letters = null) {
        this.visit(this.starts[place], this.starts[place + 1], visit, letters);
    }

    // The records before the first event.
    visitStart(visit) {
        this.visit(this.body, this.starts[0], visit);
    }

    facts(place) {
        const facts = [];
        this.visitEvent(place, (word, line) => FACTS.has(word) && facts.push(line));
        return facts;
    }

    lineOf(address) {
        return Math.floor((address - this.settings.base) / 32);
    }

    address(line, word = 0) {
        return this.settings.base + 32 * line + 4 * word;
    }

    // The word of its line in which an address lies.
    wordOf(address) {
        return Math.floor((address - this.settings.base) / 4) % 8;
    }
}

const FACTS = new Set(["did", "miss", "overflow", "emptied", "took", "dropped", "asked", "violated", "gaveup", "commit", "phase", "serves",
    "bus", "sent"]);

// The value of the word behind this one in a line.
function after(line, name) {
    const words = line.split(" ");
    return words[words.indexOf(name) + 1];
}
