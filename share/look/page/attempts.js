// The attempts of each core, found in one pass: where each began, had its last instruction (or asked to go alone, and was), and ended, and
// how. Places are those of events.

class Attempts {
    constructor(trace) {
        const cores = trace.settings.cores;
        this.trace = trace;
        this.all = [];
        this.commits = [];
        this.violations = [];
        this.tids = new Map();
        this.open = new Array(cores).fill(null);
        this.phases = Array.from({ length: cores }, () => [[-1, "Running"]]);
        trace.visitStart((word, line) => {
            if (word === "core") this.phases[parseInt(line.slice(5))] = [[-1, line.split(" ").slice(7).join(" ")]];
        });
        const letters = new Set([..."dpvcg"].map((it) => it.charCodeAt(0))); // did, phase, violated, commit, gaveup
        for (let place = 0; place < trace.count; place++) trace.visitEvent(place, (word, line) => this.take(place, word, line), letters);
        for (const it of this.open) if (it) this.all.push(it);
        this.byCore = Array.from({ length: cores }, (_, core) => this.all.filter((it) => it.core === core));
    }

    take(place, word, line) {
        switch (word) {
        case "did": {
            const core = parseInt(line.slice(4));
            const it = this.open[core] || (this.open[core] = { core, first: place, ended: -1, alone: -1, last: -1, count: 0 });
            it.count++;
            break;
        }
        case "phase":
            this.phase(place, line.split(" "));
            break;
        case "violated":
            this.violated(place, line.split(" "));
            break;
        case "commit":
            this.committed(place, line.split(" "));
            break;
        case "gaveup":
            this.tids.set(Number(line.split(" ")[1]), { place, what: "given up by core " + line.split(" ")[2] });
            break;
        }
    }

    phase(place, words) {
        const core = Number(words[1]);
        const it = this.open[core];
        this.phases[core].push([place, words.slice(2).join(" ")]);
        if (it && it.ended < 0 && (words[2] === "AwaitTid" || words[2] === "Overflowing")) it.ended = place;
        if (it && words[2] === "Solo") it.alone = place;
    }

    close(place, core) {
        const it = this.open[core] || { core, first: place, ended: -1, alone: -1, last: -1, count: 0 };
        it.last = place;
        if (it.ended < 0) it.ended = place;
        this.open[core] = null;
        this.all.push(it);
        return it;
    }

    violated(place, w) {
        const it = this.close(place, Number(w[1]));
        const [by, tid, line, words, lost] = [3, 5, 7, 9, 11].map((at) => Number(w[at]));
        it.violation = { place, core: it.core, by, tid, line, words, lost, phase: w.slice(13).join(" "), attempt: it };
        it.count = it.violation.lost;
        this.violations.push(it.violation);
    }

    committed(place, w) {
        const it = this.close(place, Number(w[2]));
        it.tid = Number(w[1]);
        it.count = Number(w[3]);
        this.commits.push(it);
        this.tids.set(it.tid, { place, what: "committed by core " + it.core });
    }

    // The core's phase after so many events.
    phaseAfter(core, places) {
        const phases = this.phases[core];
        let low = 0;
        let high = phases.length - 1;
        while (low < high) {
            const middle = (low + high + 1) >> 1;
            if (phases[middle][0] < places) low = middle;
            else high = middle - 1;
        }
        return phases[low][1];
    }

    // The instructions of an attempt that read (`reads`) or stored words of a violation, in order: event, pc, what, address, size, values.
    accesses(attempt, violation, reads) {
        const found = [];
        for (let place = attempt.first; place <= attempt.last; place++) {
            this.trace.visitEvent(place, (word, line) => {
                if (word !== "did" || parseInt(line.slice(4)) !== attempt.core) return;
                const w = line.split(" ");
                const size = Number(w[5]);
                const is = w[3] === "change" || w[3] === (reads ? "load" : "store") || (reads && w[3] === "store" && size < 4);
                if (!is) return;
                const address = parseInt(w[4], 16);
                const hit = this.trace.lineOf(address) === violation.line && (violation.words >> this.trace.wordOf(address)) & 1;
                if (hit) found.push({ place, pc: parseInt(w[2], 16), what: w[3], address, size, values: w.slice(6) });
            });
        }
        return found;
    }
}
