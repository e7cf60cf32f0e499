"use strict";

const fs = require("node:fs");

const PIECE = 1 << 20;

/** The whole lines of a file, one after the other; what stands after the last newline is none. */
class Lines {
  #fd;
  #piece = Buffer.allocUnsafe(PIECE);
  #size = 0;
  #at = 0;

  constructor(file) {
    this.number = 0;
    /** whether the file ends in the middle of a line */
    this.half = false;
    this.#fd = fs.openSync(file, "r");
  }

  next() {
    const begun = [];
    for (;;) {
      const end = this.#at < this.#size ? this.#piece.indexOf(0x0a, this.#at) : -1;
      if (end !== -1 && end < this.#size) {
        const rest = this.#piece.subarray(this.#at, end);
        this.#at = end + 1;
        this.number++;
        return begun.length === 0 ? rest.toString("utf8") : Buffer.concat([...begun, rest]).toString("utf8");
      }
      if (this.#at < this.#size) begun.push(Buffer.from(this.#piece.subarray(this.#at, this.#size)));
      this.#size = this.#fd === undefined ? 0 : fs.readSync(this.#fd, this.#piece, 0, PIECE, null);
      this.#at = 0;
      if (this.#size === 0) {
        this.half = begun.length > 0;
        return undefined;
      }
    }
  }

  close() {
    if (this.#fd !== undefined) fs.closeSync(this.#fd);
    this.#fd = undefined;
  }
}

module.exports = { Lines };
