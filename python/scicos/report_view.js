// What part of the run is in view, and where the cursors are.
"use strict";

class View {
  // -- time --

  get times() { return this.axis === "tick" ? this.dates : this.orders; }

  get end() {
    const last = this.dates[this.count - 1];
    return this.axis === "tick" ? last + Math.max(1, last / 20) : this.count;
  }

  whole() { [this.from, this.to] = [0, this.end]; }

  dateOf(row) { return BigInt(this.dates[row]); }

  rowAt(tick) { return place(this.dates, Number(tick), true) - 1; } // the last reaction up to a tick

  zoom(by, about = (this.from + this.to) / 2) {
    const least = Math.min(4, this.end);
    const span = Math.min(this.end, Math.max(least, (this.to - this.from) * by));
    const share = (about - this.from) / (this.to - this.from);
    this.window(about - share * span, span);
  }

  window(from, span = this.to - this.from) {
    this.from = Math.max(0, Math.min(from, this.end - span));
    this.to = this.from + span;
    this.changed();
  }

  x(time) { return (time - this.from) / (this.to - this.from) * this.width; }

  timeAt(x) { return this.from + x / this.width * (this.to - this.from); }

  // -- the cursor --

  setRow(row, tick = null) {
    this.row = Math.max(0, Math.min(this.count - 1, row));
    this.tick = tick === null ? this.dateOf(this.row) : tick;
    this.changed();
  }

  setTick(tick) { this.setRow(this.rowAt(tick < 0n ? 0n : tick), tick < 0n ? 0n : tick); }

  cursorTime() { return this.axis === "tick" ? Number(this.tick) : this.row; }

  markTime() { return this.axis === "tick" ? Number(this.dateOf(this.markRow)) : this.markRow; }

  pointed(x) { // the reaction that is near, or else the tick
    const time = this.timeAt(x), times = this.times;
    const next = place(times, time);
    for (const row of [next - 1, next]) {
      if (row >= 0 && row < this.count && Math.abs(this.x(times[row]) - x) < 6) {
        return this.axis === "tick" ? this.dateOf(this.rowAt(this.dateOf(row))) : row;
      }
    }
    return this.axis === "tick" ? BigInt(Math.max(0, Math.floor(time))) : Math.max(0, Math.floor(time));
  }

  click(x, second) {
    const at = this.pointed(x);
    if (second) this.setMark(this.axis === "tick" ? this.rowAt(at) : at);
    else if (this.axis === "tick") this.setTick(at);
    else this.setRow(at);
  }

  setMark(row) {
    this.markRow = row === this.markRow ? -1 : Math.max(0, Math.min(this.count - 1, row));
    this.changed();
  }

  follow() { // brings the cursor into view
    const time = this.cursorTime();
    if (time < this.from || time > this.to) this.window(time - (this.to - this.from) / 2);
  }

  change(forward) { // to the next or the last change of the marked signals, or of all that are shown
    const marked = this.shown.filter(item => item.block === chosen);
    let best = -1;
    for (const {rows, item} of (marked.length ? marked : this.shown).map(item => (item.load(this.dates), {rows: item.rows, item}))) {
      const at = forward ? place(rows, this.row, true) : place(rows, this.row) - 1;
      if (at < 0 || at >= rows.length) continue;
      if (best < 0 || (forward ? rows[at] < best : rows[at] > best)) best = rows[at];
    }
    if (best >= 0) {
      this.setRow(best);
      this.follow();
    }
  }
}
