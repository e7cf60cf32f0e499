"use strict";

// The records of docs/FORMAT.md, their forms and their limits, looked at before a line is written: a line that the
// auditor refuses has it refuse the whole bundle.

const { TapError } = require("./errors");

const LIMITS = Object.freeze({
  line: 4_194_304,
  name: 32,
  id: 128,
  off: 64,
  room: 256,
  nsp: 256,
  rooms: 256,
  attachments: 64,
  turn: 65_535,
  pids: 65_536,
  entries: 1_000_000,
  records: 4_000_000,
});

const NAME = /^[A-Za-z0-9_.-]+$/;
const PRINTABLE = /^[\x21-\x7e]+$/;
const HALF_PAIR = /\p{Surrogate}/u;
const NOT_BASE64 = /[^A-Za-z0-9+/]/;
const TAIL_OF_ONE = /[AQgw]$/; // of a last group that carries one byte: its unused bits are zero
const TAIL_OF_TWO = /[AEIMQUYcgkosw048]$/;

const field = (name, why) => new TapError("Field", `${name} ${why}`);
const limit = (name, why) => new TapError("Limit", `${name} ${why}`);

function text(name, value) {
  if (typeof value !== "string") throw field(name, "is no text");
  if (HALF_PAIR.test(value)) throw new TapError("NotJson", `${name} has half a surrogate pair`);
}

function sized(name, value, most) {
  const bytes = Buffer.byteLength(value);
  if (bytes < 1 || bytes > most) throw limit(name, `has ${bytes} bytes, 1 to ${most} are allowed`);
}

function printable(name, value, most) {
  text(name, value);
  if (value !== "" && !PRINTABLE.test(value)) throw field(name, "has a byte outside 0x21 to 0x7e");
  sized(name, value, most);
}

function whole(name, value) {
  if (!Number.isSafeInteger(value) || value < 0) throw field(name, "is no whole number");
}

function isBase64(value) {
  const body = value.replace(/={1,2}$/, "");
  const padding = value.length - body.length;
  return (
    value.length % 4 === 0 &&
    !NOT_BASE64.test(body) &&
    (padding !== 2 || TAIL_OF_ONE.test(body)) &&
    (padding !== 1 || TAIL_OF_TWO.test(body))
  );
}

function base64(name, value) {
  if (typeof value !== "string") throw field(name, "is no text");
  if (!isBase64(value)) throw field(name, "is no base64");
}

function list(name, value, most, check) {
  if (!Array.isArray(value)) throw field(name, "is no list");
  for (const item of value) check(`an item of ${name}`, item);
  if (value.length > most) throw limit(name, `has ${value.length} items, at most ${most} are allowed`);
}

const id = (name, value) => printable(name, value, LIMITS.id);
const off = (name, value) => printable(name, value, LIMITS.off);
const room = (name, value) => {
  text(name, value);
  sized(name, value, LIMITS.room);
};
const nsp = (name, value) => {
  text(name, value);
  if (!value.startsWith("/") || value.includes(",")) throw field(name, "has to begin with / and hold no comma");
  sized(name, value, LIMITS.nsp);
};
const rooms = (name, value) => list(name, value, LIMITS.rooms, room);
const bin = (name, value) => list(name, value, LIMITS.attachments, base64);
const turn = (name, value) => {
  whole(name, value);
  if (value > LIMITS.turn) throw limit(name, `is ${value}, at most ${LIMITS.turn} is allowed`);
};
const offOrNull = (name, value) => {
  if (value !== null) off(name, value);
};
// a list that is left out where it is empty
const optional = (check) => Object.assign((name, value) => check(name, value), { optional: true });

const KINDS = {
  stream: {
    ev: { off, nsp, rooms: optional(rooms), except: optional(rooms), text, bin: optional(bin) },
    other: { off },
  },
  node: {
    start: { off: offOrNull },
    take: { off },
    takes: { off },
    open: { pid: id, sid: id, nsp },
    join: { pid: id, room },
    leave: { pid: id, room },
    break: { pid: id, turn },
    back: { pid: id, turn },
    gone: { pid: id },
  },
  client: {
    conn: { c: whole },
    in: { t: text },
    inb: { b: base64 },
    poll: { t: text },
    out: { t: text },
    lost: {},
  },
};

/** The record as it is written: its known fields in their order, empty lists left out. Throws where the auditor would refuse it. */
function checked(of, version, record) {
  const kinds = KINDS[of];
  const k = record?.k;
  const fields = Object.hasOwn(kinds, k) && !(k === "takes" && version < 2) ? kinds[k] : undefined;
  if (fields === undefined) {
    throw new TapError("UnknownKind", `${JSON.stringify(k)} is no kind of a ${of}'s tap in version ${version}`);
  }
  const made = { k };
  for (const name of Object.keys(fields)) {
    const value = record[name];
    if (fields[name].optional && (value === undefined || value?.length === 0)) continue;
    fields[name](name, value);
    made[name] = value;
  }
  return made;
}

function checkName(name) {
  if (typeof name !== "string" || !NAME.test(name) || name.length > LIMITS.name) {
    throw new TapError("Name", `a tap's name is 1 to ${LIMITS.name} bytes of A-Za-z0-9_.-, not ${JSON.stringify(name)}`);
  }
}

module.exports = { KINDS, LIMITS, checkName, checked, isBase64 };
