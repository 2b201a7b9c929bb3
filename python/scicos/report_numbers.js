// The data of waveforms: numbers as report_packing.py packs them, signals and sources of events.
"use strict";

// ---- numbers of the waveforms ----

function bytesOf(text) {
  const raw = atob(text), bytes = new Uint8Array(raw.length);
  for (let at = 0; at < raw.length; at++) bytes[at] = raw.charCodeAt(at);
  return bytes;
}

// Numbers up to 2^53: no date is beyond, as a run has at most 1,000,000 events of up to 2^31 ticks each.
function numbersOf(text) {
  const bytes = bytesOf(text), numbers = [];
  for (let at = 0; at < bytes.length; at++) {
    let number = 0, factor = 1;
    while (bytes[at] & 128) {
      number += (bytes[at++] & 127) * factor;
      factor *= 128;
    }
    numbers.push(number + bytes[at] * factor);
  }
  return numbers;
}

function grouped(number) { return number.toLocaleString("en"); } // as 1,000,000

// The first place of rising numbers that is at least (or, with `above`, more than) a number.
function place(numbers, number, above = false, low = 0, high = numbers.length) {
  while (low < high) {
    const middle = (low + high) >> 1;
    if (numbers[middle] < number || above && numbers[middle] === number) low = middle + 1; else high = middle;
  }
  return low;
}

class Signal {
  constructor(row, number) {
    Object.assign(this, row, {number});
    this.key = `s${number}`;
    this.form = row.low >= 0 && row.high <= 1 ? "bit" : "line";
  }

  load(dates) { // the rows of the changes, and the values from there on
    if (this.rows) return;
    const numbers = numbersOf(this.data), count = numbers.length / 2;
    this.rows = new Int32Array(count);
    this.values = new Float64Array(count);
    for (let at = 0, row = 0, value = this.first; at < count; at++) {
      const change = numbers[2 * at + 1];
      row += numbers[2 * at];
      value += change % 2 ? -(change + 1) / 2 : change / 2;
      this.rows[at] = row;
      this.values[at] = value;
    }
    this.data = "";
    const size = Math.ceil(count / 128);
    this.least = new Float64Array(size).fill(Infinity);
    this.most = new Float64Array(size).fill(-Infinity);
    for (let at = 0; at < count; at++) {
      const part = at >> 7;
      if (this.values[at] < this.least[part]) this.least[part] = this.values[at];
      if (this.values[at] > this.most[part]) this.most[part] = this.values[at];
    }
    const gone = count && dates[this.rows[0]] === 0; // the first value is never seen along the ticks
    this.ticks = gone ? this.range(place(this.rows, place(dates, 0, true)) - 1, count) : [this.low, this.high];
  }

  at(row) { // what it holds behind a reaction
    const before = place(this.rows, row, true) - 1;
    return before < 0 ? this.first : this.values[before];
  }

  range(low, high) { // the least and the greatest of the values of changes
    let least = Infinity, most = -Infinity;
    for (let at = low; at < high;) {
      if (at % 128 === 0 && at + 128 <= high) {
        if (this.least[at >> 7] < least) least = this.least[at >> 7];
        if (this.most[at >> 7] > most) most = this.most[at >> 7];
        at += 128;
      } else {
        if (this.values[at] < least) least = this.values[at];
        if (this.values[at] > most) most = this.values[at];
        at++;
      }
    }
    return [least, most];
  }
}

class Source { // of events
  constructor(row, number, rows) {
    Object.assign(this, row, {number, rows, form: "event", type: "event", key: `e${number}`, changes: rows.length});
  }

  load() {}

  at(row) { return place(this.rows, row, true); } // how many there were
}
