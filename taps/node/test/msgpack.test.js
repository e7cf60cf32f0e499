"use strict";

const assert = require("node:assert/strict");
const { spawnSync } = require("node:child_process");
const { test } = require("node:test");
const { unpack } = require("../lib/msgpack");

const PYTHON = "/usr/bin/python3"; // Debian's, with python3-msgpack
const noPython = spawnSync(PYTHON, ["-c", "import msgpack"]).status === 0 ? false : "python3-msgpack isn't installed";

// packs JSON with python3-msgpack; {"$b": hex} is a byte string, {"$r": [text, times]} a text that is repeated
const PACK = `
import json, msgpack, sys, datetime
def thaw(v):
    if isinstance(v, list): return [thaw(x) for x in v]
    if isinstance(v, dict):
        if "$b" in v: return bytes.fromhex(v["$b"])
        if "$r" in v: return v["$r"][0] * v["$r"][1]
        if "$n" in v: return [v["$n"][0]] * v["$n"][1]
        if "$m" in v: return {"k%d" % i: i for i in range(v["$m"])}
        if "$t" in v: return msgpack.Timestamp(*v["$t"])
        return {k: thaw(x) for k, x in v.items()}
    return v
for value in json.load(sys.stdin):
    print(msgpack.packb(thaw(value), use_single_float=SINGLE).hex())
`;

function packed(values, single = false) {
  const { stdout, stderr, status } = spawnSync(PYTHON, ["-c", PACK.replace("SINGLE", single ? "True" : "False")], {
    input: JSON.stringify(values),
    encoding: "utf8",
    maxBuffer: 1 << 26,
  });
  assert.equal(status, 0, stderr);
  return stdout.trim().split("\n").map((hex) => Buffer.from(hex, "hex"));
}

test("reads what python3-msgpack writes", { skip: noPython }, () => {
  const values = [
    null, true, false, 0, 1, 127, 128, 255, 256, 65535, 65536, 4294967295, 4294967296, 9007199254740991,
    -1, -32, -33, -128, -129, -32768, -32769, -2147483648, -2147483649, -9007199254740991, 0.5, -1.25, 1e300,
    "", "a", "é€😀", { $r: ["x", 31] }, { $r: ["x", 32] }, { $r: ["x", 255] }, { $r: ["é", 256] }, { $r: ["x", 70000] },
    [], [1, "b", null], { $n: [1, 15] }, { $n: [1, 16] }, { $n: [7, 70000] },
    {}, { a: { b: [1, { c: "d" }] } }, { $m: 15 }, { $m: 16 }, { $m: 70000 },
    { $b: "" }, { $b: "00ff80" }, { $b: "ab".repeat(300) }, { $b: "cd".repeat(70000) },
  ];
  const meant = (value) => {
    if (Array.isArray(value)) return value.map(meant);
    if (value === null || typeof value !== "object") return value;
    if ("$b" in value) return Buffer.from(value.$b, "hex");
    if ("$r" in value) return value.$r[0].repeat(value.$r[1]);
    if ("$n" in value) return new Array(value.$n[1]).fill(value.$n[0]);
    if ("$m" in value) return Object.fromEntries(Array.from({ length: value.$m }, (_, i) => [`k${i}`, i]));
    return Object.fromEntries(Object.entries(value).map(([name, it]) => [name, meant(it)]));
  };
  packed(values).forEach((bytes, i) => assert.deepEqual(unpack(bytes), meant(values[i]), `value ${i}`));
  assert.equal(unpack(packed([0.5], true)[0]), 0.5); // a float of 32 bits
});

test("reads dates and undefined as the packers of JavaScript write them", { skip: noPython }, () => {
  const [seconds, millis, early] = packed([{ $t: [1700000000, 0] }, { $t: [1700000000, 123000000] }, { $t: [-1, 5000000] }]);
  assert.deepEqual(unpack(seconds), new Date(1700000000000)); // 4 bytes
  assert.deepEqual(unpack(millis), new Date(1700000000123)); // 8 bytes
  assert.deepEqual(unpack(early), new Date(-1000 + 5)); // 12 bytes
  // notepack.io
  assert.equal(unpack(Buffer.from("d40000", "hex")), undefined);
  const date = Buffer.alloc(10);
  date.set([0xd7, 0]);
  date.writeBigInt64BE(1700000000123n, 2);
  assert.deepEqual(unpack(date), new Date(1700000000123));
});

test("gives blobs of their own, and members of any name", () => {
  const bytes = Buffer.from("c40201ff", "hex");
  const blob = unpack(bytes);
  bytes[2] = 9;
  assert.deepEqual(blob, Buffer.from([1, 0xff]));
  const map = unpack(Buffer.concat([Buffer.from([0x81, 0xa9]), Buffer.from("__proto__"), Buffer.from([1])]));
  assert.equal(JSON.stringify(map), '{"__proto__":1}');
  assert.deepEqual(unpack(new Uint8Array([0x92, 1, 2])), [1, 2]);
});

test("refuses what is no MessagePack", () => {
  for (const hex of ["", "c1", "a2ff", "92", "81a161", "dd7fffffff", "dfffffffff", "c6ffffffff", "d405", "d40501", "0000", "8190c0", "d7"]) {
    assert.throws(() => unpack(Buffer.from(hex, "hex")), /MessagePack/, hex);
  }
  assert.throws(() => unpack(Buffer.alloc(2000, 0x91)), /nested/);
});
