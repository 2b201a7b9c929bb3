// Waveforms: what is shown, and what the reader does.
"use strict";

class Waves extends Canvases {
  constructor() {
    super();
    this.count = data.reactions;
    let date = 0;
    this.dates = Float64Array.from(numbersOf(data.dates), more => date += more);
    this.orders = Float64Array.from(this.dates, (_, row) => row);
    this.by = numbersOf(data.by);
    const rows = data.sources.map(() => []);
    this.by.forEach((source, row) => source && rows[source - 1].push(row));
    this.sources = data.sources.map((row, at) => new Source(row, at, Int32Array.from(rows[at])));
    this.signals = data.signals.map((row, at) => new Signal(row, at));
    this.items = [...this.sources, ...this.signals];
    this.shown = [];
    this.axis = "tick";
    this.row = this.markRow = -1;
    this.tick = 0n;
    this.rowsBox = one("#rows");
    this.view = one("#view");
    this.whole();
    one("#readout").textContent = "A click on the waveforms sets the cursor, and tells the values there.";
    this.listen();
    this.start();
  }

  // -- rows --

  show(items) {
    this.shown = items;
    this.rowsBox.replaceChildren(...items.map(item => this.rowOf(item)));
    mark();
    this.list();
    this.changed();
  }

  toggle(item, on) {
    this.show(on ? this.items.filter(other => other === item || this.shown.includes(other))
      : this.shown.filter(other => other !== item));
  }

  rowOf(item) {
    item.load(this.dates);
    const name = element("button", {type: "button", className: "name", title: `${item.name} (${item.type})`},
      element("bdi", {dir: "ltr"}, item.name));
    name.onclick = () => showBlock(item.block, name);
    const label = element("div", {className: "label"}, name, element("span", {className: "value"}));
    const canvas = element("canvas", {role: "img"});
    const told = item.form === "event" ? `${item.changes} events` : `${item.low} to ${item.high}, ${item.changes} changes`;
    canvas.setAttribute("aria-label", `${item.name}: ${told}`);
    const row = element("div", {className: `row ${item.form}`}, label, canvas);
    row.dataset.key = item.key;
    row.dataset.of = item.block;
    if (item.form !== "event") {
      label.append(element("span", {className: "bounds", title: told}, item.form === "bit" ? "" : this.bounded(item).join(" .. ")));
      if (item.high > 1 || item.low < 0) {
        const form = element("button", {type: "button", className: "form", title: "draw as a line, or as values"}, "line/values");
        form.onclick = () => {
          item.form = item.form === "line" ? "values" : "line";
          row.className = `row ${item.form}`;
          mark();
          this.changed();
        };
        label.append(form);
      }
    }
    return row;
  }

  bounded(item) { return this.axis === "tick" ? item.ticks : [item.low, item.high]; } // along the axis

  list() { // the signals to choose from
    const words = one("#filter").value;
    this.hits = this.items.filter(item => found(item.name, words));
    one("#found").textContent = `${this.hits.length} of ${this.items.length}`;
    one("#signals").replaceChildren(...this.hits.slice(0, 150).map(item => {
      const box = element("input", {type: "checkbox", checked: this.shown.includes(item)});
      box.onchange = () => this.toggle(item, box.checked);
      const value = element("span", {className: "value"});
      value.dataset.key = item.key;
      return element("li", {}, element("label", {}, box, element("span", {className: "name"}, item.name), value));
    }));
    if (this.hits.length > 150) one("#signals").append(element("li", {}, `and ${this.hits.length - 150} more: filter them`));
    this.told = -2;
  }

  block(number, body) { // the signals of a block that was clicked
    const own = this.items.filter(item => item.block === number);
    if (!own.length) return;
    const rows = own.slice(0, 64).map(item => {
      const value = element("span", {className: "value"});
      value.dataset.key = item.key;
      return element("tr", {}, element("th", {scope: "row"}, item.name), element("td", {}, item.type),
        element("td", {className: "count"}, value));
    });
    const go = element("button", {type: "button", id: "to-waves"}, "show in the waveforms");
    go.onclick = () => one(`#rows [data-of="${number}"]`).scrollIntoView({block: "center"});
    body.append(element("h3", {}, "Signals, at the cursor"), element("table", {}, ...rows), element("p", {className: "tools"}, go));
    const lacking = own.slice(0, 16).filter(item => !this.shown.includes(item));
    this.told = -2;
    if (lacking.length) this.show(this.items.filter(item => this.shown.includes(item) || lacking.includes(item)));
    else this.changed();
  }

  // -- what the reader does --

  listen() {
    const over = event => event.target.closest && event.target.closest("canvas");
    const xOf = event => event.clientX - one("#scale").getBoundingClientRect().left;
    this.view.addEventListener("wheel", event => {
      if (!over(event)) return;
      const wide = this.to - this.from, all = wide >= this.end * 0.9999;
      if (event.shiftKey || Math.abs(event.deltaX) > Math.abs(event.deltaY)) {
        event.preventDefault();
        this.window(this.from + (event.deltaX || event.deltaY) / this.width * wide);
      } else if (event.deltaY < 0 || !all) {
        event.preventDefault();
        const lines = event.deltaMode ? event.deltaY * 30 : event.deltaY;
        this.zoom(Math.exp(Math.max(-300, Math.min(300, lines)) * 0.002), this.timeAt(xOf(event)));
      }
    }, {passive: false});
    const fingers = new Map();
    let moved = 0;
    this.view.addEventListener("pointerdown", event => {
      if (!over(event) || event.button > 0) return;
      fingers.set(event.pointerId, xOf(event));
      moved = fingers.size > 1 ? 99 : 0;
      event.target.setPointerCapture(event.pointerId);
    });
    this.view.addEventListener("pointermove", event => {
      if (!fingers.has(event.pointerId)) return;
      const before = [...fingers.values()], x = xOf(event), old = fingers.get(event.pointerId);
      moved += Math.abs(x - old);
      fingers.set(event.pointerId, x);
      if (moved < 4) return;
      if (fingers.size === 1) this.window(this.from - (x - old) / this.width * (this.to - this.from));
      else {
        const after = [...fingers.values()];
        const [apart, now] = [before, after].map(([a, b]) => Math.max(8, Math.abs(a - b)));
        this.zoom(apart / now, this.timeAt((after[0] + after[1]) / 2));
      }
    });
    const ended = event => {
      if (!fingers.delete(event.pointerId)) return;
      if (event.type === "pointerup" && moved < 4 && !fingers.size) this.click(xOf(event), event.shiftKey);
    };
    this.view.addEventListener("pointerup", ended);
    this.view.addEventListener("pointercancel", ended);
    this.view.addEventListener("keydown", event => this.key(event));
    this.buttons();
    this.slide();
  }

  key(event) {
    if (event.ctrlKey || event.metaKey || event.altKey || /INPUT|SELECT/.test(event.target.tagName)) return;
    const wide = this.to - this.from, about = this.row >= 0 ? this.cursorTime() : (this.from + this.to) / 2;
    const steps = {
      "+": () => this.zoom(0.5, about), "=": () => this.zoom(0.5, about), "-": () => this.zoom(2, about),
      0: () => (this.whole(), this.changed()),
      ArrowLeft: () => event.shiftKey ? this.window(this.from - wide / 10) : (this.setRow(this.row - 1), this.follow()),
      ArrowRight: () => event.shiftKey ? this.window(this.from + wide / 10) : (this.setRow(this.row + 1), this.follow()),
      Home: () => (this.setRow(0), this.follow()), End: () => (this.setRow(this.count - 1), this.follow()),
      n: () => this.change(true), p: () => this.change(false), m: () => this.setMark(this.row),
    };
    const step = steps[event.key] || steps[event.key.toLowerCase()];
    if (!step) return;
    event.preventDefault();
    step();
  }

  buttons() {
    const about = () => this.row >= 0 && this.cursorTime() >= this.from && this.cursorTime() <= this.to ? this.cursorTime()
      : (this.from + this.to) / 2;
    one("#zoom-in").onclick = () => this.zoom(0.5, about());
    one("#zoom-out").onclick = () => this.zoom(2, about());
    one("#zoom-all").onclick = () => (this.whole(), this.changed());
    one("#change-before").onclick = () => this.change(false);
    one("#change-next").onclick = () => this.change(true);
    one("#axis").onchange = () => {
      this.axis = one("#axis").value;
      this.whole();
      this.show(this.shown);
    };
    one("#tick").onchange = () => {
      const text = one("#tick").value.replace(/[\s,]/g, "");
      if (/^\d{1,19}$/.test(text)) {
        this.setTick(BigInt(text));
        this.follow();
      } else one("#tick").value = this.tick;
    };
    one("#filter").oninput = () => (this.list(), this.changed());
    one("#show-found").onclick = () => this.show(this.items.filter(item => this.shown.includes(item) || this.hits.slice(0, 100).includes(item)));
    one("#hide-all").onclick = () => this.show([]);
  }

  slide() {
    const rail = one("#rail");
    let held = null;
    const to = event => {
      const box = rail.getBoundingClientRect(), wide = this.to - this.from;
      this.window((event.clientX - box.left) / box.width * this.end - wide / 2);
    };
    rail.onpointerdown = event => {
      held = event.pointerId;
      rail.setPointerCapture(held);
      to(event);
    };
    rail.onpointermove = event => event.pointerId === held && to(event);
    rail.onpointerup = () => held = null;
  }

  // -- a view as a link: #tick=130&from=0&to=200&show=kitchen&show=boiler --

  start() {
    const asked = new URLSearchParams(location.hash.includes("=") ? location.hash.slice(1) : "");
    const names = asked.getAll("show");
    const moving = this.signals.filter(item => item.changes), few = moving.length ? moving : this.signals;
    this.show(names.length ? this.items.filter(item => names.includes(item.name))
      : [...this.sources.slice(0, 6), ...few.slice(0, 14)]);
    if (asked.get("axis") === "reaction") one("#axis").value = this.axis = "reaction";
    this.whole();
    const [from, to] = ["from", "to"].map(key => Number(asked.get(key)));
    if (to > from) this.window(from, Math.min(to - from, this.end));
    if (/^\d{1,19}$/.test(asked.get("tick") || "")) this.setTick(BigInt(asked.get("tick")));
    else if (data.stopped) this.setRow(this.count - 1);
    if (asked.get("block")) this.wanted = Number(asked.get("block"));
    this.begun = true;
  }

  keep() { // the view in the page's address
    if (!this.begun || this.paper) return;
    clearTimeout(this.later);
    this.later = setTimeout(() => {
      const told = new URLSearchParams();
      if (this.row >= 0) told.set("tick", this.tick);
      if (this.axis !== "tick") told.set("axis", this.axis);
      if (this.from > 0 || this.to < this.end) {
        told.set("from", Math.round(this.from * 1000) / 1000);
        told.set("to", Math.round(this.to * 1000) / 1000);
      }
      if (this.shown.length <= 32 && String(told)) for (const item of this.shown) told.append("show", item.name);
      if (!String(told)) return;
      try { history.replaceState(null, "", `#${told}`); } catch { /* where the address may not be changed */ }
    }, 400);
  }
}
