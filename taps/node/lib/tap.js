"use strict";

const fs = require("node:fs");
const path = require("node:path");
const { TapError } = require("./errors");
const { KINDS, LIMITS, checkName, checked } = require("./records");
const { redactorOf } = require("./redact");

const PIECE = 1 << 20;

/**
 * A tap: the records of one observer, a line each, written at once.
 *
 * A record that can't be written ends the tap: `write` throws a TapError then, and from then on writes nothing and
 * answers false. A tap that ends is complete up to its end; one with a hole contradicts itself.
 */
class Tap {
  #fd;
  #stream;
  #redact;
  #ended = false;
  #pids = new Set();
  #connected = false;

  /** @param {import("./index").TapOptions<import("./index").TapKind>} options */
  constructor(options) {
    const { name, of, file, dir, stream, version, resume = false, redact } = options;
    checkName(name);
    if (!Object.hasOwn(KINDS, of)) throw new TapError("UnknownKind", `a tap is of a stream, node or client, not ${JSON.stringify(of)}`);
    if ([file, dir, stream].filter((it) => it !== undefined).length !== 1) {
      throw new TapError("Field", "a tap is given one of file, dir and stream");
    }
    this.name = name;
    this.of = of;
    this.version = version ?? (of === "node" ? 2 : 1);
    if (this.version !== 1 && this.version !== 2) throw new TapError("Version", `version ${version} is neither 1 nor 2`);
    /** how many records it has, the header not counted */
    this.records = 0;
    /** the offset of its last entry */
    this.last = undefined;
    /** the number of its last connection */
    this.connection = undefined;
    /** what ended it, if anything did */
    this.error = undefined;
    this.#redact = redactorOf(redact);

    if (stream !== undefined) {
      this.#stream = stream;
      stream.on?.("error", (error) => this.#fail(new TapError("Write", `the tap ${name} has ended: ${error.message}`, { cause: error })));
    } else {
      this.file = file ?? path.join(dir, `${name}.tap`);
      if (resume && this.#resume()) return;
      this.#fd = open(this.file, "ax");
    }
    this.#put(`${name} ${JSON.stringify({ k: "tap", v: this.version, of })}\n`);
  }

  get ended() {
    return this.#ended;
  }

  /**
   * Writes a record. True where it was written, false where the tap has ended before.
   *
   * @param {object} record
   */
  write(record) {
    if (this.#ended) return false;
    try {
      const made = checked(this.of, this.version, record);
      this.#follow(made);
      const kept = this.#redact === undefined ? made : checked(this.of, this.version, this.#redact.record(made));
      const line = `${this.name} ${JSON.stringify(kept)}\n`;
      if (line.length * 3 > LIMITS.line && Buffer.byteLength(line) - 1 > LIMITS.line) {
        throw new TapError("LineTooLong", `a line has at most ${LIMITS.line} bytes`);
      }
      this.#put(line);
    } catch (error) {
      const why = error instanceof TapError ? error : new TapError("Write", error.message, { cause: error });
      why.message = `the tap ${this.name} has ended: ${why.message}`;
      why.record = record;
      this.#fail(why);
      throw why;
    }
    return true;
  }

  /** Closes its file; a stream is left open. */
  end() {
    this.#ended = true;
    if (this.#fd === undefined) return;
    fs.closeSync(this.#fd);
    this.#fd = undefined;
  }

  #fail(error) {
    if (this.#ended) return;
    this.error = error;
    try {
      this.end();
    } catch {
      // what it has is with the system
    }
  }

  // one write a record, so that lines of several processes in one file stay whole
  #put(line) {
    if (this.#fd === undefined) this.#stream.write(line);
    else fs.appendFileSync(this.#fd, line);
  }

  // what can only be said of a record by those before it
  #follow(record) {
    const most = this.of === "stream" ? LIMITS.entries : LIMITS.records;
    if (this.records === most) throw new TapError("Limit", `a ${this.of}'s tap has at most ${most} records`);
    if (this.of === "stream") {
      if (record.off === this.last) throw new TapError("OffsetTwice", `the entry before has the offset ${record.off}`);
      this.last = record.off;
    } else if (this.of === "node") {
      if (record.pid !== undefined && !this.#pids.has(record.pid)) {
        if (this.#pids.size === LIMITS.pids) throw new TapError("Limit", `all nodes' taps have at most ${LIMITS.pids} pids`);
        this.#pids.add(record.pid);
      }
      if (record.k === "take" || record.k === "takes") this.last = record.off;
    } else if (record.k === "conn") {
      if (record.c <= (this.connection ?? -1)) throw new TapError("Field", `c is ${record.c} after ${this.connection}`);
      this.connection = record.c;
      this.#connected = true;
    } else {
      if (!this.#connected) throw new TapError("Field", `${record.k} stands outside a connection`);
      this.#connected = record.k !== "lost";
    }
    this.records++;
  }

  // goes on in a file that is there: false where it isn't, or has no whole header yet
  #resume() {
    if (this.of === "node") throw new TapError("Field", "a node that is started again needs a new tap");
    let fd;
    try {
      fd = fs.openSync(this.file, "r+");
    } catch (error) {
      if (error.code === "ENOENT") return false;
      throw new TapError("Write", `${this.file}: ${error.message}`, { cause: error });
    }
    let whole = 0; // bytes of whole lines
    try {
      let number = 0;
      for (const line of lines(fd)) {
        whole += line.length + 1;
        number++;
        if (line.length > 0) this.#recall(line.toString("utf8"), number);
      }
      fs.ftruncateSync(fd, whole); // what a process that was killed left of its last record
    } finally {
      fs.closeSync(fd);
    }
    if (whole === 0) {
      fs.unlinkSync(this.file);
      return false;
    }
    this.#connected = false; // whatever connection stood was lost with the process
    this.#fd = open(this.file, "a");
    return true;
  }

  #recall(line, number) {
    const prefix = `${this.name} `;
    try {
      const record = line.startsWith(prefix) ? JSON.parse(line.slice(prefix.length)) : undefined;
      if (record === null || typeof record !== "object") throw new SyntaxError("it is no record");
      if (number > 1) this.#follow(checked(this.of, this.version, record));
      else if (record.k !== "tap" || record.of !== this.of || (record.v !== 1 && record.v !== 2)) throw new SyntaxError("it is no header");
      else this.version = record.v;
    } catch (error) {
      throw new TapError("Header", `${this.file}: line ${number} is no line of the ${this.of}'s tap ${this.name}: ${error.message}`, { cause: error });
    }
  }
}

function open(file, flags) {
  try {
    return fs.openSync(file, flags, 0o600); // it has what sessions can be taken over with
  } catch (error) {
    if (error.code === "EEXIST") throw new TapError("Exists", `${file} is there already: a tap's name is used once`, { cause: error });
    throw new TapError("Write", `${file}: ${error.message}`, { cause: error });
  }
}

// the whole lines of a file, without their newlines
function* lines(fd) {
  let rest = Buffer.alloc(0);
  for (;;) {
    const piece = Buffer.allocUnsafe(PIECE);
    const got = fs.readSync(fd, piece, 0, PIECE, null);
    if (got === 0) return;
    let bytes = Buffer.concat([rest, piece.subarray(0, got)]);
    for (let end; (end = bytes.indexOf(0x0a)) !== -1; bytes = bytes.subarray(end + 1)) yield bytes.subarray(0, end);
    rest = bytes;
  }
}

module.exports = { Tap };
