// The timeline: a row a core, on a canvas that zooms and pans. What it shows is in the list of violations and in the panels too, as text.

class Timeline {
    // `pick(place, violation)` is called for a click: with the place of an event, and the violation that was hit or null.
    constructor(canvas, trace, attempts, program, pick) {
        Object.assign(this, { canvas, trace, attempts, program, pick, cursor: 0, drag: null, waiting: false });
        this.cores = trace.settings.cores;
        this.row = this.cores <= 8 ? 30 : this.cores <= 24 ? 20 : 12;
        this.left = 66;
        this.top = 22;
        this.from = 0;
        this.to = Math.max(trace.count, 1);
        canvas.style.height = `${this.top + this.row * this.cores + 6}px`;
        canvas.addEventListener("wheel", (it) => this.wheel(it), { passive: false });
        canvas.addEventListener("pointerdown", (it) => this.down(it));
        canvas.addEventListener("pointermove", (it) => this.move(it));
        canvas.addEventListener("pointerup", (it) => this.up(it));
        canvas.addEventListener("pointercancel", () => (this.drag = null));
        new ResizeObserver(() => this.draw()).observe(canvas);
        matchMedia("(prefers-color-scheme: dark)").addEventListener("change", () => this.draw());
    }

    get width() {
        return this.canvas.clientWidth - this.left - 16;
    }

    x(place) {
        return this.left + ((place - this.from) * this.width) / (this.to - this.from);
    }

    place(x) {
        return this.from + ((x - this.left) * (this.to - this.from)) / this.width;
    }

    y(core) {
        return this.top + this.row * core;
    }

    show(from, to) {
        const most = Math.max(this.trace.count, 1);
        const length = Math.min(Math.max(to - from, 10), most);
        this.from = Math.min(Math.max(from, 0), most - length);
        this.to = this.from + length;
        this.draw();
    }

    zoom(factor, centre = this.cursor) {
        const middle = centre >= this.from && centre <= this.to ? centre : (this.from + this.to) / 2;
        this.show(middle - (middle - this.from) * factor, middle + (this.to - middle) * factor);
    }

    // Moves the cursor behind so many events, and into view.
    setCursor(places) {
        this.cursor = places;
        const length = this.to - this.from;
        if (places < this.from || places > this.to) this.show(places - length / 2, places + length / 2);
        else this.draw();
    }

    wheel(event) {
        event.preventDefault();
        if (Math.abs(event.deltaX) > Math.abs(event.deltaY)) {
            const by = (event.deltaX * (this.to - this.from)) / this.width;
            this.show(this.from + by, this.to + by);
        } else this.zoom(Math.exp(event.deltaY / 400), this.place(event.offsetX));
    }

    down(event) {
        this.canvas.setPointerCapture(event.pointerId);
        this.drag = { x: event.offsetX, from: this.from, to: this.to, moved: false };
    }

    move(event) {
        if (!this.drag) {
            this.hover(event);
            return;
        }
        const by = event.offsetX - this.drag.x;
        if (Math.abs(by) > 3) this.drag.moved = true;
        if (!this.drag.moved) return;
        const places = (by * (this.drag.to - this.drag.from)) / this.width;
        this.show(this.drag.from - places, this.drag.to - places);
    }

    up(event) {
        const moved = this.drag && this.drag.moved;
        this.drag = null;
        if (moved) return;
        const core = Math.floor((event.offsetY - this.top) / this.row);
        const violation = this.violationAt(core, event.offsetX);
        const place = Math.min(Math.max(Math.floor(this.place(event.offsetX)), 0), this.trace.count - 1);
        this.pick(violation && this.isEnd(violation, event.offsetX) ? violation.place : place, violation);
    }

    // The attempt that is drawn at this place of a core's row.
    attemptAt(core, x) {
        const place = this.place(x);
        return (this.attempts.byCore[core] || []).find((it) => it.first <= place + 0.5 && (it.last < 0 || it.last + 1 >= place));
    }

    isEnd(violation, x) {
        return Math.abs(this.x(violation.place + 1) - x) < 8;
    }

    // The violation whose end is within some pixels; one in whose attempt the place lies.
    violationAt(core, x) {
        const near = (this.attempts.byCore[core] || []).filter((it) => it.violation && this.isEnd(it.violation, x));
        const away = (it) => Math.abs(this.x(it.last + 1) - x);
        const it = near.sort((one, other) => away(one) - away(other))[0] || this.attemptAt(core, x);
        return it && it.violation ? it.violation : null;
    }

    hover(event) {
        const core = Math.floor((event.offsetY - this.top) / this.row);
        const it = this.attemptAt(core, event.offsetX);
        const first = this.trace.first;
        const events = it ? `events ${it.first + first} to ${it.last < 0 ? "the end" : it.last + first}` : "";
        const how = !it ? "" : it.tid ? `TID ${it.tid}` : it.violation ? `violated by core ${it.violation.by}` : "not ended";
        this.canvas.title = it ? `core ${core}, ${how}: ${plural(it.count, "instruction")}, ${events}` : "";
    }

    draw() {
        if (this.waiting) return;
        this.waiting = true;
        requestAnimationFrame(() => {
            this.waiting = false;
            this.paint();
        });
    }

    paint() {
        const ratio = window.devicePixelRatio || 1;
        const { clientWidth, clientHeight } = this.canvas;
        this.canvas.width = clientWidth * ratio;
        this.canvas.height = clientHeight * ratio;
        const style = getComputedStyle(document.documentElement);
        this.colour = (name) => style.getPropertyValue("--" + name);
        this.pen = this.canvas.getContext("2d");
        this.pen.scale(ratio, ratio);
        this.pen.font = "12px system-ui, sans-serif";
        this.pen.clearRect(0, 0, clientWidth, clientHeight);
        this.paintScale(clientHeight);
        this.pen.save();
        this.pen.beginPath();
        this.pen.rect(this.left, 0, this.width, clientHeight);
        this.pen.clip();
        for (let core = 0; core < this.cores; core++) this.paintCore(core);
        this.paintArrows();
        this.pen.restore();
        this.paintCursor(clientHeight);
    }

    paintScale(height) {
        const pen = this.pen;
        let step = 1;
        for (let at = 0; ((this.to - this.from) / step) * 70 > this.width; at++) step *= at % 3 === 1 ? 2.5 : 2;
        pen.textAlign = "center";
        for (let at = Math.ceil((this.from + this.trace.first) / step) * step; at - this.trace.first <= this.to; at += step) {
            const x = this.x(at - this.trace.first);
            pen.fillStyle = this.colour("grid");
            pen.fillRect(x, this.top - 4, 1, height);
            pen.fillStyle = this.colour("soft");
            pen.fillText(String(at), x, 13);
        }
        pen.textAlign = "left";
        pen.fillStyle = this.colour("ink");
        if (this.row >= 12) for (let core = 0; core < this.cores; core++) pen.fillText(`core ${core}`, 6, this.y(core) + this.row / 2 + 3);
    }

    paintCore(core) {
        for (const it of this.attempts.byCore[core]) {
            if (it.first > this.to) break;
            if (it.last < 0 || it.last + 1 >= this.from) this.paintAttempt(it);
        }
        if (this.to - this.from > this.width / 5) return;
        this.pen.fillStyle = this.colour("ink");
        const last = Math.min(Math.ceil(this.to), this.trace.count);
        for (let place = Math.max(Math.floor(this.from), 0); place < last; place++) {
            if (this.trace.node(place) === "c" + core) this.pen.fillRect(this.x(place + 0.5) - 1, this.y(core) + this.row - 5, 2, 4);
        }
    }

    paintAttempt(it) {
        const pen = this.pen;
        const [x, y, height] = [this.x(it.first), this.y(it.core) + 2, this.row - 8];
        const end = this.x(it.last < 0 ? this.trace.count : it.last + 1);
        const kind = it.tid ? "done" : it.violation ? "lost" : "open";
        pen.fillStyle = this.colour(kind);
        pen.fillRect(x, y, Math.max(end - x, 1), height);
        if (it.ended >= 0 && it.ended !== it.last) {
            pen.fillStyle = this.colour("waits");
            pen.fillRect(this.x(it.ended), y, (it.alone < 0 ? end : this.x(it.alone)) - this.x(it.ended), height);
        }
        if (end - x < 5) return;
        pen.strokeStyle = this.colour(kind + "-edge");
        pen.strokeRect(x + 0.5, y + 0.5, end - x - 1, height - 1);
        const text = it.tid ? String(it.tid) : it.violation ? "x" : "";
        if (height > 9 && end - x > 8 * text.length + 6) {
            pen.fillStyle = this.colour("ink");
            pen.textAlign = "center";
            pen.fillText(text, it.violation ? end - 7 : (x + end) / 2, y + height / 2 + 4);
            pen.textAlign = "left";
        }
    }

    // From who committed to who was violated, where they aren't too many to see.
    paintArrows() {
        const seen = this.attempts.violations.filter((it) => it.place >= this.from && it.place <= this.to);
        if (seen.length > 150) return;
        const pen = this.pen;
        pen.strokeStyle = pen.fillStyle = this.colour("lost-edge");
        for (const it of seen) {
            const commit = this.attempts.tids.get(it.tid);
            if (!commit) continue;
            const down = it.by < it.core;
            const [x, y, endX, endY] = [this.x(commit.place), this.y(it.by) + (down ? this.row - 6 : 2), this.x(it.place + 1),
                this.y(it.core) + (down ? 0 : this.row - 4)];
            pen.beginPath();
            pen.moveTo(x, y);
            pen.bezierCurveTo(x, (y + endY) / 2, endX, (y + endY) / 2, endX, endY);
            pen.stroke();
            pen.beginPath();
            pen.moveTo(endX, endY + (down ? 2 : -2));
            pen.lineTo(endX - 3, endY + (down ? -5 : 5));
            pen.lineTo(endX + 3, endY + (down ? -5 : 5));
            pen.fill();
        }
    }

    paintCursor(height) {
        const x = this.x(this.cursor);
        if (x < this.left - 1 || x > this.left + this.width + 1) return;
        this.pen.fillStyle = this.colour("accent");
        this.pen.fillRect(x - 1, 16, 2, height);
    }
}
