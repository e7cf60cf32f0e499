"use strict";

const fs = require("node:fs");
const path = require("node:path");
const { TapError } = require("../errors");

const KEPT = 16 << 20; // characters that wait for their files, over all of them

/** Many files in a folder, written a piece at a time, so that few are open and little is kept. */
class Writer {
  #folder;
  #waiting = new Map();
  #kept = 0;
  #made = new Set();

  /** @param {string[]} names of files, none of which may be there yet */
  constructor(folder, names) {
    this.#folder = folder;
    const seen = new Set();
    for (const name of names) {
      const file = path.join(folder, name);
      if (seen.has(name)) throw new TapError("Exists", `two taps would be written into ${file}`);
      seen.add(name);
      if (fs.existsSync(file)) throw new TapError("Exists", `${file} is there already`);
    }
  }

  line(name, line) {
    const waiting = this.#waiting.get(name);
    this.#waiting.set(name, waiting === undefined ? `${line}\n` : `${waiting}${line}\n`);
    this.#kept += line.length + 1;
    if (this.#kept > KEPT) this.end();
  }

  end() {
    for (const [name, lines] of this.#waiting) {
      const file = path.join(this.#folder, name);
      fs.appendFileSync(file, lines, { mode: 0o600, flag: this.#made.has(name) ? "a" : "ax" });
      this.#made.add(name);
    }
    this.#waiting.clear();
    this.#kept = 0;
  }

  /** Takes back what was written. */
  abandon() {
    this.#waiting.clear();
    for (const name of this.#made) fs.rmSync(path.join(this.#folder, name), { force: true });
  }
}

module.exports = { Writer };
