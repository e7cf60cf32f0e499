"use strict";

const assert = require("node:assert/strict");
const { spawnSync } = require("node:child_process");
const { createHmac } = require("node:crypto");
const fs = require("node:fs");
const path = require("node:path");
const { test } = require("node:test");
const { TapError, readKey, redactor } = require("..");
const json = require("../lib/json");
const { ROOT, directory, noProgram, program } = require("./helpers");

const KEY = Buffer.from("sixteen bytes, or more");
const it = redactor(KEY);
const h = (text, digits) => createHmac("sha256", KEY).update(text).digest("hex").slice(0, digits);
const b = (hex) => Buffer.from(hex, "hex");

test("keys", (t) => {
  const file = path.join(directory(t), "key");
  fs.writeFileSync(file, "0123456789abcdef\n\n");
  assert.deepEqual(Buffer.from(readKey(file)), Buffer.from("0123456789abcdef\n"));
  fs.writeFileSync(file, "0123456789abcdef");
  assert.equal(readKey(file).length, 16);
  assert.throws(() => readKey(`${file}.not`), (error) => error instanceof TapError && error.code === "Key");
  for (const key of [Buffer.from("0123456789abcde"), "0123456789abcdef", null]) assert.throws(() => redactor(key), (error) => error.code === "Key");
});

test("hashes have the length of what they stand for, from 8 digits to 32", () => {
  assert.equal(it.hash("a"), h("a", 8));
  assert.equal(it.hash(""), h("", 8));
  assert.equal(it.hash("é€😀 and so"), h("é€😀 and so", 10));
  assert.equal(it.hash("x".repeat(33)), h("x".repeat(33), 32));
  assert.equal(it.hash("a"), it.hash("a"));
  for (let i = 0; i < 10_000; i++) it.hash(`room ${i}`);
  assert.equal(it.hash("a"), h("a", 8));
  for (const bytes of ["", "00", "ff".repeat(32), "ff".repeat(33)]) {
    const whole = createHmac("sha256", KEY).update(b(bytes)).digest();
    assert.equal(it.attachment(b(bytes).toString("base64")), whole.subarray(0, Math.min(bytes.length / 2, 32)).toString("base64"));
  }
});

test("packets stay what they are", () => {
  const same = ["40", "40/n,", "41", "41/n,", "2", "3", "6", "42[]", '42["1-0"]', "42[1,true,null,1.50,1e5,-0]", "430[]", '42/n,17["1-0"]'];
  for (const text of same) assert.equal(it.message(text), text);
  const cases = [
    ['42["hi",{"a":[1.50,"é"],"b":null},"1-0"]', `42["${h("hi", 8)}",{"${h("a", 8)}":[1.50,"${h("é", 8)}"],"${h("b", 8)}":null},"1-0"]`],
    ['42 [ "hi" , 10000000000000000000001 , "1-0" ] ', `42 [ "${h("hi", 8)}" , 10000000000000000000001 , "1-0" ] `],
    ['42["\\u00e9","\\u0001","1-0"]', `42["${h('"\\u00e9"', 8)}","${h("\u0001", 8)}","1-0"]`],
    ['42["hi",{"a":"b"}]', `42["${h("hi", 8)}",{"${h("a", 8)}":"${h("b", 8)}"}]`], // the last argument is no offset
    ['452-/n,7["b",{"_placeholder":true,"num":0},{"num":"x"},"1-0"]', `452-/n,7["${h("b", 8)}",{"_placeholder":true,"num":0},{"${h("num", 8)}":"${h("x", 8)}"},"1-0"]`],
    ['431["done"]', `431["${h("done", 8)}"]`],
    ['40/n,{"pid":"P","offset":"1-0","token":"t"}', `40/n,{"pid":"${h("P", 8)}","offset":"1-0","${h("token", 8)}":"${h("t", 8)}"}`],
    ['40{"sid":"S","pid":"P"}', `40{"sid":"${h("S", 8)}","pid":"${h("P", 8)}"}`],
    ['44{"message":"m"}', `44{"${h("message", 8)}":"${h("m", 8)}"}`],
    ['44"m"', `44"${h("m", 8)}"`],
  ];
  for (const [text, redacted] of cases) assert.equal(it.message(text), redacted);
  assert.equal(it.record({ k: "poll", t: '42["a","1-0"]\x1ebAAE=' }).t, `42["${h("a", 8)}","1-0"]\x1eb${it.attachment("AAE=")}`);
});

test("what is no packet stays none", () => {
  for (const text of ["", "4", "4x", "9", "42", '42{"a":1}', '42["a"', '42["\\ud800"]', "42[1e999]", '45["a"]', '4565-["a"]', `42${"[".repeat(128)}${"]".repeat(128)}`, '421234567890123456789["a"]', "b!", "bAA=", "x"]) {
    const redacted = it.message(text);
    assert.doesNotMatch(redacted, /"a"|"\]$/);
    assert.ok(redacted === "" || /^[0-9]*\["[0-9a-f]+$/.test(redacted), `${text} became ${redacted}`);
  }
});

test("JSON is read as the auditor reads it", () => {
  const long = JSON.stringify(["x\\\"".repeat(100_000), "\\".repeat(100_001)]);
  for (const text of ["[]", "{}", '{"a":1,"a":2}', "[1.0,1e5,-0,1E+2]", '"\\u0000\\"\\\\é"', '{"__proto__":[]}', "-1.5e-3", '["\u2028"]', ' [ "\\u00e9\\/" , { "a" : 1 } ] ', long]) {
    assert.notEqual(json.parse(text), undefined, text);
  }
  assert.deepEqual(json.parse(' {"a" : "b"}'), { members: [[{ text: "a", from: 2, to: 5 }, { text: "b", from: 8, to: 11 }]] });
  for (const text of ["", "[", "]", "[1,]", "[1 2]", "{1:2}", '{"a"}', '{"a":1,}', "01", "1.", ".5", "+1", "NaN", "tru", "nulll", '"\t"', '"\\x"', '"a', "[]x", '"\\udc00"', "1e400", "'a'", "[".repeat(129)]) {
    assert.equal(json.parse(text), undefined, text);
  }
});

// what the taps in other languages do, too
const VECTORS = path.join(ROOT, "taps/redaction-vectors.json");

test("the vectors that all packages share", { skip: fs.existsSync(VECTORS) ? false : "they aren't there" }, () => {
  const { key, vectors } = JSON.parse(fs.readFileSync(VECTORS, "utf8"));
  const redact = redactor(Buffer.from(key));
  for (const { about, of, in: text, out } of vectors) assert.deepEqual(redact[of](text), out, `${about}: ${JSON.stringify(text)}`);
});

// what a bundle's lines are, each redacted by the Redactor of taps/python
const PYTHON = `
import json, sys
sys.path.insert(0, sys.argv[1])
from sioaudit_taps import Redactor, read_key
it = Redactor(read_key(sys.argv[2]))
for line in sys.stdin.buffer:
    name, _, text = line.decode().rstrip("\\n").partition(" ")
    record = json.loads(text)
    print(name + " " + json.dumps(record if record["k"] == "tap" else it.record(record)))
`;
const noPython = spawnSync("python3", ["-c", "import sys; assert sys.version_info >= (3, 11)"]).status === 0 ? false : "Python 3.11 isn't there";

// made up and of real software
function* bundles() {
  for (const folder of ["examples", "tests/recordings"]) {
    for (const name of fs.readdirSync(path.join(ROOT, folder)).filter((it) => it.endsWith(".jsonl"))) {
      const bundle = fs.readFileSync(path.join(ROOT, folder, name), "utf8");
      if (!bundle.split("\n").some((line) => line.startsWith("{"))) yield [name, bundle]; // one with certificates is no tap's
    }
  }
}

test("taps in Python redact alike", { skip: noPython }, (t) => {
  const key = path.join(directory(t), "key");
  fs.writeFileSync(key, KEY);
  const input = [...bundles()].map(([, bundle]) => bundle).join("");
  const { status, stdout, stderr } = spawnSync("python3", ["-c", PYTHON, path.join(ROOT, "taps/python/src"), key], { input, encoding: "utf8", maxBuffer: 1 << 28 });
  assert.equal(status, 0, stderr);
  const read = (text) => text.trimEnd().split("\n").map((line) => [line.slice(0, line.indexOf(" ")), JSON.parse(line.slice(line.indexOf(" ") + 1))]);
  const records = read(redactBundle(input));
  assert.deepEqual(read(stdout), records);
  const kinds = new Set(records.flatMap(([, record]) => Object.keys(record).map((field) => `${record.k} ${field}`)));
  for (const it of ["open pid", "open sid", "join room", "leave room", "ev rooms", "ev except", "ev text", "ev bin", "in t", "inb b", "poll t", "out t"]) assert.ok(kinds.has(it), it);
});

// a bundle, line by line
function redactBundle(bundle) {
  return bundle.replace(/^(\S+ )(.+)$/gm, (_, name, line) => {
    const record = JSON.parse(line);
    return name + JSON.stringify(record.k === "tap" ? record : it.record(record));
  });
}

test("verdicts are the same", { skip: noProgram }, () => {
  const answers = (input) => spawnSync(program(), ["audit", "--whole"], { input, encoding: "utf8" }).stdout;
  const faults = new Set();
  for (const [name, bundle] of bundles()) {
    const plain = answers(bundle);
    assert.equal(answers(redactBundle(bundle)), plain.replace(/^(yes|no) (\S+)/gm, (_, verdict, pid) => `${verdict} ${it.hash(pid)}`), name);
    for (const [, fault] of plain.matchAll(/^no \S+ (\w+)/gm)) faults.add(fault);
  }
  for (const fault of ["NOLOG", "CHAIN", "CLIENT", "NAMES", "FRAME", "ORPHAN", "CONTENT", "EXTRA", "DOUBLED", "SWAPPED", "LOST", "WINDOW", "TAIL"]) assert.ok(faults.has(fault), fault);
});
