"use strict";

// The journal of a proxy: JSON lines, appended. What is put in one turn of the event loop is written at its end by one
// system call, and what waits for it (`after`) runs then: so nothing is sent on that isn't in the file, and a process that
// is killed loses only what it hadn't sent on.

const { randomBytes } = require("node:crypto");
const fs = require("node:fs");

const BATCH = 1 << 17; // characters after which it isn't waited for the turn's end

class Journal {
  #fd;
  #batch = "";
  #waiting = [];
  #scheduled = false;
  #last = 0; // the time of the last line that tells one
  #told = 0;
  #onFailure;
  #onFault;

  /**
   * @param {string} file which isn't there yet
   * @param {{ redacted?: boolean, onFailure?: (error: Error) => void, onFault?: (error: Error) => void }} [options]
   *   `onFailure` is told once what ended the journal, `onFault` what was thrown by what waited for it
   */
  constructor(file, { redacted = false, onFailure, onFault } = {}) {
    this.file = file;
    this.id = randomBytes(8).toString("hex");
    /** what ended it before its time */
    this.error = undefined;
    this.bytes = 0;
    this.#onFailure = onFailure;
    this.#onFault = onFault;
    this.#fd = fs.openSync(file, "ax", 0o600); // it has what sessions can be taken over with
    const header = { k: "proxy", v: 1, id: this.id, started: new Date().toISOString() };
    if (redacted) header.redacted = true;
    this.#batch = `${JSON.stringify(header)}\n`;
    this.#write();
    if (this.error) throw this.error;
  }

  /** Unix milliseconds that never go back, whatever the clock does. */
  now() {
    this.#last = Math.max(this.#last, Date.now());
    return this.#last;
  }

  /** Puts a line: `json` is the text of an object. */
  put(json) {
    if (this.#fd === undefined) return;
    if (this.#batch === "") {
      const now = this.now();
      if (now !== this.#told) {
        this.#told = now;
        this.#batch = `{"k":"at","at":${now}}\n`;
      }
      this.#schedule();
    }
    this.#batch += `${json}\n`;
    if (this.#batch.length > BATCH) this.#write();
  }

  /** Calls `then` once all that was put is in the file. */
  after(then) {
    this.#waiting.push(then);
    this.#schedule();
  }

  flush() {
    if (this.#batch !== "") this.#write();
    const waiting = this.#waiting;
    if (waiting.length === 0) return;
    this.#waiting = [];
    for (const then of waiting) {
      try {
        then();
      } catch (error) {
        this.#onFault?.(error); // one connection's fault is not the others'
      }
    }
  }

  /** Writes the last line and closes the file. */
  end() {
    if (this.#fd === undefined) return;
    this.put('{"k":"end"}');
    this.flush();
    if (this.#fd === undefined) return;
    fs.closeSync(this.#fd);
    this.#fd = undefined;
  }

  #schedule() {
    if (this.#scheduled) return;
    this.#scheduled = true;
    setImmediate(() => {
      this.#scheduled = false;
      this.flush();
    });
  }

  #write() {
    const bytes = Buffer.from(this.#batch, "utf8");
    this.#batch = "";
    try {
      for (let at = 0; at < bytes.length; ) at += fs.writeSync(this.#fd, bytes, at);
      this.bytes += bytes.length;
    } catch (error) {
      // a journal that ends is complete up to its end; one with a hole isn't
      this.error = error;
      try {
        fs.closeSync(this.#fd);
      } catch {
        // what it has is with the system
      }
      this.#fd = undefined;
      this.#onFailure?.(error);
    }
  }
}

module.exports = { Journal };
