// What things are called: nodes, addresses, lines, instructions, facts; and elements of the page.

const REGISTERS = ("zero ra sp gp tp t0 t1 t2 s0 s1 a0 a1 a2 a3 a4 a5 a6 a7 s2 s3 s4 s5 s6 s7 s8 s9 s10 s11 t3 t4 t5 t6").split(" ");

function hex(value) {
    return (value >>> 0).toString(16).padStart(8, "0");
}

function plural(count, what) {
    return `${count} ${what}${count === 1 ? "" : "s"}`;
}

function nodeName(node) {
    return { c: "core ", d: "directory ", v: "the vendor", b: "the bus" }[node[0]] + (node === "v" || node === "bus" ? "" : node.slice(1));
}

// The words of a mask: "word 0", "words 0 and 3".
function wordsOf(mask) {
    const names = [0, 1, 2, 3, 4, 5, 6, 7].filter((it) => (mask >> it) & 1);
    if (names.length < 2) return names.length ? `word ${names[0]}` : "no word";
    return `words ${names.slice(0, -1).join(", ")} and ${names[names.length - 1]}`;
}

// What is known of the program: symbols as [address, size, name, is code], instructions and source lines by pc, and texts of source lines.
class Program {
    constructor(data) {
        this.symbols = data.symbols;
        this.instructions = data.instructions;
        this.sources = data.sources;
        this.texts = data.texts;
    }

    symbol(address) {
        let low = 0;
        let high = this.symbols.length - 1;
        while (low <= high) {
            const middle = (low + high) >> 1;
            const [start, size] = this.symbols[middle];
            if (address < start) high = middle - 1;
            else if (address >= start + Math.max(size, 1)) low = middle + 1;
            else return this.symbols[middle];
        }
        return null;
    }

    name(address) {
        const it = this.symbol(address);
        if (!it) return hex(address);
        return it[2] + (address > it[0] ? "+" + (address - it[0]) : "");
    }

    // The names of what lies in the 32 bytes from an address on.
    namesIn(address) {
        return this.symbols.filter((it) => it[0] < address + 32 && it[0] + Math.max(it[1], 1) > address).map((it) => it[2]).join(", ");
    }

    instruction(pc) {
        return this.instructions[hex(pc)] || "";
    }

    // FILE:LINE and its text, where they are known.
    source(pc) {
        const place = this.sources[hex(pc)];
        return place ? `${place} ${this.texts[place] || ""}`.trim() : "";
    }
}

// A fact in words.
function tell(fact, program) {
    const w = fact.split(" ");
    const pc = () => parseInt(w[2], 16);
    switch (w[0]) {
    case "did": return tellDid(w, program.instruction(pc()) || w[3], program);
    case "miss": return `misses line ${w[5]} (${program.name(parseInt(w[3], 16))})`;
    case "overflow": return `has no room for line ${w[5]}, and asks to go alone`;
    case "emptied": return `evicts line ${w[3]}`;
    case "took": case "dropped": return `${w[0]} ${w.slice(1).join(" ")}`;
    case "asked": return `asks the owner first; stays: ${w.slice(1).join(" ")}`;
    case "violated": return `is violated by core ${w[3]}'s commit of TID ${w[5]}: ${wordsOf(Number(w[9]))} of line ${w[7]}, `
        + `${plural(Number(w[11]), "instruction")} lost`;
    case "gaveup": return `gives up TID ${w[1]}`;
    case "commit": return `commits as TID ${w[1]}: ${plural(Number(w[3]), "instruction")}`;
    case "phase": return `is now ${w.slice(2).join(" ")}`;
    case "serves": return `serves TID ${w[2]}`;
    case "bus": return `the bus: ${w.slice(1).join(" ")}`;
    case "sent": return w[1] === "Packet" ? `sends line ${w[3]} in its packet` : `sends ${w.slice(4).join(" ")} to ${nodeName(w[2])}`;
    }
    return fact;
}

function tellDid(w, instruction, program) {
    const at = () => program.name(parseInt(w[4], 16));
    switch (w[3]) {
    case "load": return `${instruction}: loads ${w[6]} from ${at()}`;
    case "store": return `${instruction}: stores ${w[6]} to ${at()}`;
    case "change": return `${instruction}: changes ${at()} from ${w[6]} to ${w[7]}`;
    case "console": return `${instruction}: prints ${JSON.stringify(String.fromCharCode(parseInt(w[4], 16)))}`;
    case "end": return `${instruction}: ends its transaction`;
    case "halt": return `${instruction}: ends its transaction and halts with ${w[4]}`;
    case "trap": return `${instruction}: traps, cause ${w[4]}`;
    }
    return instruction;
}

// A new element with properties (`class`, `data-x` and other attributes; functions are listeners) and children.
function element(tag, properties = {}, ...children) {
    const svg = ["svg", "line", "path", "text", "title", "g", "rect", "defs", "marker"].includes(tag);
    const made = svg ? document.createElementNS("http://www.w3.org/2000/svg", tag) : document.createElement(tag);
    for (const [name, value] of Object.entries(properties)) {
        if (typeof value === "function") made.addEventListener(name, value);
        else if (value !== null && value !== false) made.setAttribute(name, value);
    }
    made.append(...children.filter((it) => it !== null && it !== undefined));
    return made;
}

// A table with a caption, a row of heads, and rows of texts or elements; the first cell of a row is its head. Without rows it is a word.
function table(caption, heads, rows) {
    if (!rows.length) return element("p", { class: "soft" }, "none");
    const cell = (it, at) => element(at ? "td" : "th", at ? {} : { scope: "row" }, it instanceof Node ? it : String(it));
    return element("table", {}, element("caption", {}, caption),
        element("thead", {}, element("tr", {}, ...heads.map((it) => element("th", { scope: "col" }, it)))),
        element("tbody", {}, ...rows.map((row) => element("tr", {}, ...row.map(cell)))));
}

function byId(id) {
    return document.getElementById(id);
}
