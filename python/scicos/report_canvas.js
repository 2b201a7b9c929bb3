// How the waveforms in view are drawn.
"use strict";

class Canvases extends View {
  // -- drawing --

  changed() {
    if (this.asked) return;
    this.asked = true;
    requestAnimationFrame(() => {
      this.asked = false;
      this.draw();
    });
  }

  draw() {
    const scaleBox = one("#scale");
    this.width = scaleBox.clientWidth;
    if (!this.width) return;
    const style = getComputedStyle(root);
    const colour = name => style.getPropertyValue(`--${name}`).trim();
    this.look = {ink: colour("ink"), soft: colour("soft"), line: colour("line"), bit: colour("bit"), line2: colour("analog"),
      event: colour("event"), bad: colour("bad"), panel: colour("panel")};
    this.marks = this.grid();
    this.bounds = null;
    this.drawScale(scaleBox);
    const rows = this.rowsBox.children;
    const visible = [this.view.getBoundingClientRect().top, window.innerHeight];
    this.shown.forEach((item, at) => {
      const box = rows[at].getBoundingClientRect();
      rows[at].dirty = true;
      if (this.paper || box.bottom > -200 && box.top < visible[1] + 200) this.drawRow(rows[at], item);
    });
    this.drawCursors();
    this.tell();
    this.keep();
  }

  canvas(box) {
    const width = this.width, height = box.clientHeight, dense = window.devicePixelRatio || 1;
    if (box.width !== Math.round(width * dense) || box.height !== Math.round(height * dense)) {
      box.width = Math.round(width * dense);
      box.height = Math.round(height * dense);
    }
    const pen = box.getContext("2d");
    pen.setTransform(dense, 0, 0, dense, 0, 0);
    pen.clearRect(0, 0, width, height);
    return pen;
  }

  grid() { // round numbers in view
    const rough = (this.to - this.from) / Math.max(2, this.width / 110);
    const size = 10 ** Math.floor(Math.log10(rough));
    const step = Math.max(1, [1, 2, 5, 10].find(factor => factor * size >= rough) * size);
    const marks = [];
    for (let at = Math.ceil(this.from / step) * step; at <= this.to && marks.length < 200; at += step) marks.push(at);
    return marks;
  }

  drawScale(box) {
    const pen = this.canvas(box), height = box.clientHeight;
    pen.font = "12px system-ui, sans-serif";
    pen.fillStyle = this.look.soft;
    pen.strokeStyle = this.look.line;
    for (const at of this.marks) {
      const x = this.x(at), text = grouped(at), wide = pen.measureText(text).width;
      pen.beginPath();
      pen.moveTo(x, height - 5);
      pen.lineTo(x, height);
      pen.stroke();
      pen.fillText(text, Math.max(2, Math.min(this.width - wide - 2, x - wide / 2)), height - 8);
    }
    one(".axis .label").textContent = this.axis === "tick" ? "ticks" : "reactions";
  }

  drawRow(row, item) {
    row.dirty = false;
    const box = one("canvas", row), pen = this.canvas(box), height = box.clientHeight;
    pen.strokeStyle = this.look.line;
    pen.lineWidth = 1;
    pen.beginPath();
    for (const at of this.marks) {
      const x = Math.round(this.x(at)) + 0.5;
      pen.moveTo(x, 0);
      pen.lineTo(x, height);
    }
    pen.stroke();
    if (data.stopped) this.drawStop(pen, height);
    pen.font = "11px ui-monospace, monospace";
    if (item.form === "event") this.drawEvents(pen, item, height); else this.drawSignal(pen, item, height);
  }

  drawStop(pen, height) {
    const x = this.x(this.times[this.count - 1]);
    pen.fillStyle = this.look.bad;
    pen.fillRect(x - 1, 0, 2, height);
    pen.globalAlpha = 0.12;
    pen.fillRect(x, 0, this.width - x, height);
    pen.globalAlpha = 1;
  }

  // The places among rows of the first one in view, and behind the last one.
  within(rows) {
    const low = place(this.times, this.from), high = place(this.times, this.to, true);
    return [place(rows, low), place(rows, high)];
  }

  // For each pixel the first reaction at it or behind it.
  pixels() {
    if (!this.bounds) {
      const width = Math.ceil(this.width);
      this.bounds = new Int32Array(width + 1);
      for (let x = 0; x <= width; x++) this.bounds[x] = place(this.times, this.timeAt(x), false, x ? this.bounds[x - 1] : 0);
    }
    return this.bounds;
  }

  drawEvents(pen, item, height) {
    const [low, high] = this.within(item.rows);
    pen.fillStyle = this.look.event;
    if (high - low > 2 * this.width) {
      const bounds = this.pixels();
      for (let x = 0, at = low; x + 1 < bounds.length; x++) {
        const next = place(item.rows, bounds[x + 1], false, at);
        if (next > at) pen.fillRect(x, 5, 1, height - 10);
        at = next;
      }
      return;
    }
    for (let at = low; at < high; at++) {
      const x = this.x(this.times[item.rows[at]]);
      pen.fillRect(x - 0.75, 8, 1.5, height - 13);
      pen.beginPath();
      pen.moveTo(x, 4);
      pen.lineTo(x + 3.5, 10);
      pen.lineTo(x - 3.5, 10);
      pen.fill();
    }
  }

  drawSignal(pen, item, height) {
    const [low, high] = this.within(item.rows);
    const top = item.form === "line" ? 8 : 6, bottom = height - top;
    const [least, most] = this.bounded(item);
    const y = value => item.form === "bit" ? (value ? top : bottom) : least === most ? (top + bottom) / 2
      : bottom - (value - least) / (most - least) * (bottom - top);
    pen.strokeStyle = pen.fillStyle = item.form === "bit" ? this.look.bit : this.look.line2;
    pen.lineWidth = 1.5;
    if (high - low > 2 * this.width) this.drawDense(pen, item, low, y, top, bottom);
    else if (item.form === "values") this.drawValues(pen, item, low, high, top, bottom);
    else this.drawLine(pen, item, low, high, y);
  }

  drawDense(pen, item, low, y, top, bottom) {
    const bounds = this.pixels();
    for (let x = 0, at = low; x + 1 < bounds.length; x++) {
      const next = place(item.rows, bounds[x + 1], false, at);
      const held = at ? item.values[at - 1] : item.first;
      let [least, most] = item.range(at, next);
      least = Math.min(least, held);
      most = Math.max(most, held);
      if (item.form === "values") {
        if (next > at) pen.fillRect(x, top, 1, bottom - top);
      } else pen.fillRect(x, y(most) - 0.75, 1, y(least) - y(most) + 1.5);
      at = next;
    }
  }

  // The steps in view: from where to where which value is held.
  steps(item, low, high, use) {
    const end = this.x(this.end);
    for (let at = low - 1; at < high; at++) {
      const from = at < 0 ? this.x(0) : this.x(this.times[item.rows[at]]);
      const to = at + 1 < item.rows.length ? this.x(this.times[item.rows[at + 1]]) : end;
      use(Math.max(-9, from), Math.min(this.width + 9, to), at < 0 ? item.first : item.values[at]);
    }
  }

  drawLine(pen, item, low, high, y) {
    pen.beginPath();
    let begun = false;
    this.steps(item, low, high, (from, to, value) => {
      if (begun) pen.lineTo(from, y(value)); else pen.moveTo(from, y(value));
      pen.lineTo(to, y(value));
      begun = true;
    });
    pen.stroke();
    if (item.form === "bit") return;
    pen.fillStyle = this.look.ink;
    const middle = y(this.bounded(item).reduce((a, b) => (a + b) / 2));
    this.steps(item, low, high, (from, to, value) => {
      const text = String(value), room = Math.min(to, this.width) - Math.max(from, 0);
      const wide = 6.7 * text.length;
      if (room > wide + 6) pen.fillText(text, (Math.max(from, 0) + Math.min(to, this.width) - wide) / 2, y(value) + (y(value) > middle ? -4 : 12));
    });
  }

  drawValues(pen, item, low, high, top, bottom) {
    this.steps(item, low, high, (from, to, value) => {
      const cut = Math.min(4, (to - from) / 2), middle = (top + bottom) / 2;
      pen.beginPath();
      pen.moveTo(from, middle);
      pen.lineTo(from + cut, top);
      pen.lineTo(to - cut, top);
      pen.lineTo(to, middle);
      pen.lineTo(to - cut, bottom);
      pen.lineTo(from + cut, bottom);
      pen.closePath();
      pen.stroke();
      const text = String(value), wide = 6.7 * text.length;
      const left = Math.max(from, 0), right = Math.min(to, this.width);
      if (right - left > wide + 6) {
        pen.fillStyle = this.look.ink;
        pen.fillText(text, (left + right - wide) / 2, middle + 4);
      }
    });
  }

  drawCursors() {
    const left = one("#scale").offsetLeft;
    for (const [box, row, time] of [[one("#cursor"), this.row, () => this.cursorTime()], [one("#mark"), this.markRow, () => this.markTime()]]) {
      const x = row < 0 ? -1 : this.x(time());
      box.hidden = x < 0 || x > this.width;
      box.style.left = `${left + x - 1}px`;
    }
    [this.view.dataset.from, this.view.dataset.to] = [this.from, this.to];
    const thumb = one("#thumb");
    thumb.style.left = `${this.from / this.end * 100}%`;
    thumb.style.width = `${(this.to - this.from) / this.end * 100}%`;
  }

  tell() { // the values at the cursor
    const now = `${this.row} ${this.tick} ${this.markRow} ${this.shown.length} ${this.axis} ${chosen}`;
    if (now === this.told) return;
    this.told = now;
    for (const row of this.rowsBox.children) {
      one(".value", row).textContent = this.row < 0 ? "" : this.valueOf(row.dataset.key);
    }
    if (this.row < 0) return;
    for (const value of all("#signals .value, #block-body .value")) value.textContent = this.valueOf(value.dataset.key);
    const source = this.by[this.row] ? `event of ${data.sources[this.by[this.row] - 1].name}` : "start";
    const parts = ["tick ", element("b", {}, grouped(this.tick)), `: behind reaction ${grouped(this.row + 1)} of ${grouped(this.count)}`,
      ` (${source}, at tick ${grouped(this.dateOf(this.row))})`];
    if (data.stopped && this.row === this.count - 1) parts.push("; here the run stopped, and this reaction shows no values");
    if (this.markRow >= 0) {
      const apart = this.tick - this.dateOf(this.markRow);
      parts.push(`; ${grouped(apart < 0n ? -apart : apart)} ticks ${apart < 0n ? "before" : "behind"} the second cursor`);
    }
    one("#readout").replaceChildren(...parts);
    if (document.activeElement !== one("#tick")) one("#tick").value = this.tick;
  }

  valueOf(key) {
    const item = (key[0] === "e" ? this.sources : this.signals)[Number(key.slice(1))];
    item.load(this.dates);
    return item.at(this.row);
  }
}
