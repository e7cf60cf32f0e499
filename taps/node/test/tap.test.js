"use strict";

const assert = require("node:assert/strict");
const fs = require("node:fs");
const path = require("node:path");
const { test } = require("node:test");
const { Tap, TapError } = require("..");
const { audit, directory, noProgram } = require("./helpers");

// a tap that keeps its lines
function kept(of, options = {}) {
  const lines = [];
  return { lines, tap: new Tap({ name: "t", of, stream: { write: (line) => lines.push(line) }, ...options }) };
}

const failsWith = (code) => (error) => error instanceof TapError && error.code === code;

test("writes its header, and each record before write returns", (t) => {
  const dir = directory(t);
  const tap = new Tap({ name: "a.1", of: "node", dir });
  const file = path.join(dir, "a.1.tap");
  assert.equal(tap.file, file);
  assert.equal(fs.readFileSync(file, "utf8"), 'a.1 {"k":"tap","v":2,"of":"node"}\n');
  assert.equal(tap.write({ k: "start", off: null }), true);
  assert.equal(tap.write({ k: "open", nsp: "/", sid: "s", pid: "P", more: 1 }), true);
  assert.equal(
    fs.readFileSync(file, "utf8"),
    'a.1 {"k":"tap","v":2,"of":"node"}\na.1 {"k":"start","off":null}\na.1 {"k":"open","pid":"P","sid":"s","nsp":"/"}\n',
  );
  assert.equal(fs.statSync(file).mode & 0o077, 0);
  tap.end();
  tap.end();
  assert.equal(tap.ended, true);
  assert.equal(tap.write({ k: "gone", pid: "P" }), false);
  assert.equal(tap.records, 2);
});

test("refuses a file that is there, and one that can't be", (t) => {
  const dir = directory(t);
  new Tap({ name: "c1", of: "client", dir }).end();
  assert.throws(() => new Tap({ name: "c1", of: "client", dir }), failsWith("Exists"));
  assert.throws(() => new Tap({ name: "c1", of: "client", dir: path.join(dir, "no") }), failsWith("Write"));
  assert.throws(() => new Tap({ name: "c1", of: "client" }), failsWith("Field"));
  assert.throws(() => new Tap({ name: "c1", of: "clients", dir }), failsWith("UnknownKind"));
  assert.throws(() => new Tap({ name: "c1", of: "stream", dir, version: 3 }), failsWith("Version"));
  for (const name of ["", "a b", "é", "x".repeat(33), undefined]) assert.throws(() => new Tap({ name, of: "client", dir }), failsWith("Name"));
});

test("leaves out lists that are empty", () => {
  const { lines, tap } = kept("stream");
  tap.write({ k: "ev", off: "1-0", nsp: "/", rooms: ["r"], except: [], text: '2["é","1-0"]', bin: [] });
  tap.write({ k: "other", off: "2-0" });
  assert.deepEqual(lines, [
    't {"k":"tap","v":1,"of":"stream"}\n',
    't {"k":"ev","off":"1-0","nsp":"/","rooms":["r"],"text":"2[\\"é\\",\\"1-0\\"]"}\n',
    't {"k":"other","off":"2-0"}\n',
  ]);
  assert.equal(tap.last, "2-0");
});

test("refuses what the auditor would, and ends", () => {
  const client = [{ k: "conn", c: 1 }];
  const cases = [
    ["node", "UnknownKind", { k: "ev" }],
    ["node", "UnknownKind", {}],
    ["node", "UnknownKind", { k: "toString" }],
    ["node", "Field", { k: "take" }],
    ["node", "Field", { k: "take", off: "é" }],
    ["node", "Limit", { k: "take", off: "" }],
    ["node", "Limit", { k: "take", off: "1".repeat(65) }],
    ["node", "Field", { k: "start" }],
    ["node", "Limit", { k: "open", pid: "p".repeat(129), sid: "s", nsp: "/" }],
    ["node", "Field", { k: "open", pid: "a b", sid: "s", nsp: "/" }],
    ["node", "Field", { k: "open", pid: "p", sid: "s", nsp: "n" }],
    ["node", "Field", { k: "open", pid: "p", sid: "s", nsp: "/a,b" }],
    ["node", "Limit", { k: "open", pid: "p", sid: "s", nsp: `/${"n".repeat(256)}` }],
    ["node", "Field", { k: "join", pid: "p", room: 7 }],
    ["node", "Limit", { k: "join", pid: "p", room: "" }],
    ["node", "Limit", { k: "join", pid: "p", room: "é".repeat(129) }],
    ["node", "NotJson", { k: "join", pid: "p", room: "\ud800" }],
    ["node", "Field", { k: "break", pid: "p", turn: -1 }],
    ["node", "Field", { k: "break", pid: "p", turn: 0.5 }],
    ["node", "Limit", { k: "back", pid: "p", turn: 65536 }],
    ["stream", "Limit", { k: "ev", off: "1", nsp: "/", text: "2", rooms: new Array(257).fill("r") }],
    ["stream", "Field", { k: "ev", off: "1", nsp: "/", text: "2", rooms: "r" }],
    ["stream", "Field", { k: "ev", off: "1", nsp: "/", text: "2", rooms: null }],
    ["stream", "Limit", { k: "ev", off: "1", nsp: "/", text: "2", bin: new Array(65).fill("") }],
    ["stream", "Field", { k: "ev", off: "1", nsp: "/", text: "2", bin: ["AB=="] }],
    ["stream", "Field", { k: "ev", off: "1", nsp: "/", text: "2", bin: ["AAB="] }],
    ["stream", "Field", { k: "ev", off: "1", nsp: "/", text: "2", bin: ["AAA"] }],
    ["stream", "Field", { k: "ev", off: "1", nsp: "/", text: "2", bin: ["A-=="] }],
    ["stream", "Field", { k: "ev", off: "1", nsp: "/" }],
    ["stream", "LineTooLong", { k: "ev", off: "1", nsp: "/", text: "x".repeat(4_194_304) }],
    ["stream", "LineTooLong", { k: "ev", off: "1", nsp: "/", text: "é".repeat(2_097_152) }],
    ["stream", "OffsetTwice", { k: "other", off: "1" }, [{ k: "other", off: "1" }]],
    ["client", "Field", { k: "in", t: "2" }],
    ["client", "Field", { k: "lost" }, [...client, { k: "lost" }]],
    ["client", "Field", { k: "conn", c: 1 }, client],
    ["client", "Field", { k: "conn", c: 2 ** 60 }],
    ["client", "Field", { k: "inb", b: "=" }, client],
  ];
  for (const [of, code, record, before = []] of cases) {
    const { lines, tap } = kept(of);
    for (const it of before) tap.write(it);
    assert.throws(() => tap.write(record), (error) => failsWith(code)(error) && error.record === record && /the tap t has ended/.test(error.message), JSON.stringify(record).slice(0, 80));
    assert.equal(tap.ended, true);
    assert.equal(tap.error.code, code);
    assert.equal(tap.write(before[0] ?? { k: "gone", pid: "p" }), false);
    assert.equal(lines.length, 1 + before.length);
  }
  const front = 't {"k":"ev","off":"2","nsp":"/","text":""}'.length;
  const longest = kept("stream");
  longest.tap.write({ k: "ev", off: "2", nsp: "/", text: "x".repeat(4_194_304 - front) });
  assert.equal(longest.lines[1].length, 4_194_305); // with its newline
  const many = kept("node", { stream: { write() {} } });
  for (let i = 0; i < 65_536; i++) many.tap.write({ k: "gone", pid: `p${i}` });
  many.tap.write({ k: "gone", pid: "p0" });
  assert.throws(() => many.tap.write({ k: "gone", pid: "p65536" }), failsWith("Limit"));
  const { tap } = kept("node", { version: 1 });
  assert.throws(() => tap.write({ k: "takes", off: "1" }), failsWith("UnknownKind"));
});

test("takes what the auditor takes, at the limits", { skip: noProgram }, (t) => {
  const dir = directory(t);
  const stream = new Tap({ name: "n".repeat(32), of: "stream", dir });
  const rooms = Array.from({ length: 256 }, (_, i) => `${i}${"r".repeat(200)}`);
  stream.write({ k: "ev", off: "!".repeat(64), nsp: `/${"n".repeat(255)}`, rooms, except: rooms, text: "2", bin: [...new Array(62).fill(""), "AA==", "AAE="] });
  stream.write({ k: "ev", off: "3", nsp: "/", text: "2[]", bin: ["QQ==", "QUE=", "QUFB"] });
  const node = new Tap({ name: "a", of: "node", dir });
  node.write({ k: "start", off: null });
  node.write({ k: "open", pid: "~".repeat(128), sid: "s".repeat(128), nsp: "/" });
  node.write({ k: "join", pid: "~".repeat(128), room: "é".repeat(128) });
  node.write({ k: "break", pid: "~".repeat(128), turn: 65535 });
  assert.match(audit(dir)[0], /^no ~{128} CHAIN$/);
});

test("a stream's failure ends it", () => {
  const { EventEmitter } = require("node:events");
  const stream = Object.assign(new EventEmitter(), { write() {} });
  const tap = new Tap({ name: "c1", of: "client", stream });
  stream.emit("error", new Error("gone"));
  assert.equal(tap.error.code, "Write");
  assert.equal(tap.write({ k: "conn", c: 1 }), false);
});

test("a write that fails ends it", () => {
  const lines = [];
  const full = new Tap({ name: "c1", of: "client", stream: { write: (line) => (lines.push(line) > 1 ? assert.fail("no space") : undefined) } });
  assert.throws(() => full.write({ k: "conn", c: 1 }), failsWith("Write"));
  assert.equal(full.write({ k: "conn", c: 2 }), false);
});

test("goes on in its file, after what a killed process left of a line", (t) => {
  const dir = directory(t);
  const file = path.join(dir, "c1.tap");
  const first = new Tap({ name: "c1", of: "client", file, resume: true });
  first.write({ k: "conn", c: 3 });
  first.write({ k: "in", t: '40{"sid":"s","pid":"P"}' });
  first.end();
  const whole = fs.readFileSync(file, "utf8");
  fs.appendFileSync(file, 'c1 {"k":"in","t":"42[');
  const second = new Tap({ name: "c1", of: "client", file, resume: true });
  assert.equal(fs.readFileSync(file, "utf8"), whole);
  assert.equal(second.connection, 3);
  assert.equal(second.records, 2);
  assert.throws(() => second.write({ k: "in", t: "2" }), failsWith("Field")); // its connection was lost
  const third = new Tap({ name: "c1", of: "client", file, resume: true });
  third.write({ k: "conn", c: 4 });
  third.end();
  assert.equal(fs.readFileSync(file, "utf8"), `${whole}c1 {"k":"conn","c":4}\n`);
  assert.throws(() => new Tap({ name: "c2", of: "client", file, resume: true }), failsWith("Header"));
  assert.throws(() => new Tap({ name: "c1", of: "stream", file, resume: true }), failsWith("Header"));
  assert.throws(() => new Tap({ name: "c1", of: "node", file, resume: true }), failsWith("Field"));
  const [header] = whole.split("\n");
  for (const text of ["text", "c1 null", header.replace("1,", "3,"), `${header}\n${header}`, `${header}\nc1 {"k":"lost"}`, `${header}\nc1 nothing`]) {
    fs.writeFileSync(file, `${text}\nc1 {`);
    assert.throws(() => new Tap({ name: "c1", of: "client", file, resume: true }), failsWith("Header"), text);
    assert.equal(fs.readFileSync(file, "utf8"), `${text}\nc1 {`);
  }
});

test("goes on where no whole header was written", (t) => {
  const dir = directory(t);
  const file = path.join(dir, "st.tap");
  fs.writeFileSync(file, 'st {"k":"ta');
  const tap = new Tap({ name: "st", of: "stream", file, resume: true });
  tap.write({ k: "other", off: "1-0" });
  assert.equal(fs.readFileSync(file, "utf8"), 'st {"k":"tap","v":1,"of":"stream"}\nst {"k":"other","off":"1-0"}\n');
});
