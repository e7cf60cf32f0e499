"use strict";

// The proxy's taps against taps in the clients, in the same run, on real software: python-socketio's servers and clients.

const assert = require("node:assert/strict");
const { spawnSync } = require("node:child_process");
const fs = require("node:fs");
const path = require("node:path");
const { test } = require("node:test");
const { splitmix64 } = require("../lib/proxy/inject");
const { redactor } = require("../lib/redact");
const { noProgram, sleep, until } = require("./helpers");
const { Lab, lacks } = require("./lab");

const TRANSPORTS = { WebSocket: ["websocket"], polling: ["polling"], upgrade: ["polling", "websocket"] };
const skip = noProgram || lacks();
const events = (count, name = "m", more = {}) => Array.from({ length: count }, (_, i) => ({ rooms: ["r"], data: [name, i, "é\"\\"], ...more }));

test("the proxy's taps have the verdicts of taps in the clients", { skip, timeout: 240_000 }, async (t) => {
  const redact = redactor(Buffer.from("a key of 32 bytes, no less, here"));
  const lab = await Lab.start(t, { redact });
  const clients = [];
  for (const [name, transports] of Object.entries(TRANSPORTS)) {
    for (const node of ["a", "all"]) {
      const client = await lab.client(`${name}-${node}`, transports);
      await lab.connect(client, node);
      await lab.join(client, "r");
      clients.push(client);
    }
  }
  await lab.publish(...events(10), { data: ["all"] }, { rooms: ["r"], data: ["bytes", { $b: "AAH/" }, { deep: [{ $b: "" }] }] }, { rooms: ["elsewhere"], data: ["m"] });
  await lab.quiet();
  for (const client of clients) await lab.cut(client);
  await lab.publish(...events(6, "away"), { rooms: ["r"], data: ["bytes", { $b: "AAECAwQ=" }] });
  for (const client of clients) await lab.connect(client, "b");
  await lab.publish(...events(3, "on"));
  const { report, truth, joined } = await lab.judge({ words: ["--whole"] });
  for (const { recovered, transport } of lab.infos) {
    assert.equal(recovered, 1);
    assert.ok(transport);
  }
  assert.deepEqual(lab.infos.map((it) => it.transport), ["websocket", "websocket", "polling", "polling", "websocket", "websocket"]);
  assert.deepEqual(joined, truth);
  assert.match(joined.at(-1), /^sessions=6 yes=6 no=0$/);
  for (const line of joined.slice(0, -1)) assert.match(line, /got=22 tail=0 turns=2/);
  assert.deepEqual([report.clients, report.connections, report.nobody, report.trimmed, report.gaps], [6, 12, 0, 0, []]);
  // the program makes the same taps
  const into = path.join(lab.dir, "program");
  const { status, stdout } = spawnSync(process.execPath, [path.join(__dirname, "../bin/sioaudit-join.js"), ...lab.journals, "--into", into, "--nodes", ...lab.nodeTaps, "--only-tapped"], { encoding: "utf8" });
  assert.deepEqual([status, stdout.split("\n")[0]], [0, `journals=${lab.journals.length} connections=12 clients=6 nobody=0 sessions=6 left-out=0`]);
  for (const name of fs.readdirSync(path.join(lab.dir, "joined"))) {
    assert.ok(fs.readFileSync(path.join(into, name)).equals(fs.readFileSync(path.join(lab.dir, "joined", name))), name);
  }
  // redacted when they are joined, with all pids hashed
  const hidden = lab.again({ redact });
  assert.deepEqual(hidden.joined, joined.map((line) => line.replace(/^(yes|no) (\S+)/, (_, word, pid) => `${word} ${redact.hash(pid)}`)));
  // proxies that redacted the same run as they recorded it make the same taps, but for packets that crossed between the two
  const direct = lab.again({ journals: lab.redacted, nodes: lab.nodeTaps.map((it) => path.join(hidden.into, path.basename(it))) });
  assert.deepEqual(direct.joined, hidden.joined);
  const ways = (file) => fs.readFileSync(file, "utf8").split("\n").sort((a, b) => a.includes('{"k":"out",') - b.includes('{"k":"out",'));
  for (let i = 1; i <= 6; i++) assert.deepEqual(ways(path.join(direct.into, `c${i}.tap`)), ways(path.join(hidden.into, `c${i}.tap`)));
});

test("three namespaces on one connection, one of which is a new session after the cut", { skip, timeout: 240_000 }, async (t) => {
  const lab = await Lab.start(t);
  const nsps = ["/", "/chat", "/n"];
  const clients = [];
  for (const [name, transports] of Object.entries(TRANSPORTS)) {
    const client = await lab.client(name, transports, nsps);
    await lab.connect(client, "a");
    for (const nsp of nsps) await lab.join(client, "r", nsp);
    clients.push(client);
  }
  const all = (name) => nsps.flatMap((nsp) => [...events(3, name, { nsp }), { nsp, rooms: ["r"], data: [name, { $b: "AAH/" }, { deep: [{ $b: "" }] }] }]);
  await lab.publish(...all("m"));
  await lab.quiet();
  for (const client of clients) await lab.cut(client);
  // the first CONNECT of the next connection names no session that was, the others do
  for (const { name } of clients) await lab.driver.ask("forget", { name, nsp: "/" });
  await lab.publish(...all("away"));
  for (const client of clients) await lab.connect(client, "b");
  for (const client of clients) await lab.join(client, "r");
  await lab.publish(...all("on"));
  const { report, truth, joined } = await lab.judge();
  assert.deepEqual(lab.infos.map((it) => it.recovered), [2, 2, 2]);
  assert.deepEqual(joined, truth);
  assert.match(joined.at(-1), /^sessions=12 yes=12 no=0$/);
  assert.equal(joined.filter((line) => / got=12 tail=0 turns=2$/.test(line)).length, 6);
  assert.equal(joined.filter((line) => / got=4 tail=0 turns=1$/.test(line)).length, 6);
  assert.equal(report.clients, 3);
});

test("two proxies, a killed node, and sessions past the proxies", { skip, timeout: 240_000 }, async (t) => {
  const lab = await Lab.start(t, { proxies: 2 });
  const roaming = [];
  const staying = [];
  for (const [name, transports] of Object.entries(TRANSPORTS)) {
    roaming.push(await lab.client(`${name}-roams`, transports));
    staying.push(await lab.client(`${name}-stays`, transports));
  }
  for (const client of roaming) await lab.connect(client, "a");
  for (const client of staying) await lab.connect(client, "a", 1);
  for (const client of lab.clients) await lab.join(client, "r");
  await lab.publish(...events(4));
  await lab.quiet();
  for (const client of roaming) await lab.cut(client);
  await lab.publish(...events(2, "away"));
  for (const client of roaming) await lab.connect(client, "b", 1);
  // a client that no proxy sees
  const past = await lab.client("past");
  past.way.port = lab.nodes.b.hello.port;
  await lab.driver.ask("connect", { name: "past", url: past.way.url, transports: ["websocket"], namespaces: ["/"] });
  await lab.join(past, "r");
  await lab.publish(...events(2, "on"));
  await lab.quiet();
  await lab.nodes.a.stop("SIGKILL");
  for (const { name } of staying) await lab.driver.ask("gone", { name });
  await lab.publish(...events(2, "killed"));
  await Promise.all(staying.map((client) => lab.connect(client, "b"))); // their sessions died with the node
  for (const client of staying) await lab.join(client, "r");
  await lab.publish(...events(2, "after"));
  const { report, truth, joined } = await lab.judge({ join: { onlyTapped: true } });
  assert.deepEqual(joined.slice(0, -1), truth.slice(0, -1).filter((line) => !line.includes(pidOf(lab, "past"))));
  assert.match(joined.at(-1), /^sessions=9 yes=9 no=0$/);
  assert.match(truth.at(-1), /^sessions=10 yes=10 no=0$/);
  const told = (client) => joined.find((line) => line.includes(pidOf(lab, client.name))).replace(/^yes \S+ /, "");
  assert.deepEqual(roaming.map(told), Array(3).fill("got=12 tail=0 turns=2"));
  assert.deepEqual(staying.map(told), Array(3).fill("got=2 tail=0 turns=1"));
  assert.deepEqual([report.clients, report.leftOut, report.sessions], [6, 1, 9]);
});

const pidOf = (lab, name) => lab.infos[lab.clients.findIndex((it) => it.name === name)].pids["/"];

test("what the cluster does wrong shows as it does in the client", { skip, timeout: 240_000 }, async (t) => {
  const lab = await Lab.start(t);
  const [doubled, lost] = [await lab.client("doubled"), await lab.client("lost")];
  for (const client of [doubled, lost]) {
    await lab.connect(client, "a");
    await lab.join(client, "r");
  }
  await lab.publish(...events(3));
  await lab.quiet();
  await lab.cut(lost);
  const forgotten = await lab.publish({ rooms: ["r"], data: ["forgotten"] });
  await lab.publish(...events(2));
  await lab.quiet();
  await lab.nodes.b.ask("set", { forget: [forgotten], wait: false });
  await lab.connect(lost, "b");
  await lab.publish(...events(1));
  await lab.quiet();
  // a node that is behind the break sends again what the client has had
  await lab.nodes.b.ask("pause");
  await lab.publish(...events(3, "behind"));
  await lab.publish({ rooms: ["nobody"], data: ["mark"] });
  await lab.driver.ask("info", { name: "doubled" });
  await untilGot(lab, doubled, 3 + 3 + 1 + 3);
  await lab.cut(doubled);
  await lab.connect(doubled, "b");
  await lab.nodes.b.ask("resume");
  const { truth, joined } = await lab.judge();
  assert.deepEqual(joined, truth);
  assert.match(joined.join("\n"), new RegExp(`^no ${pidOf(lab, "doubled")} DOUBLED `, "m"));
  assert.match(joined.join("\n"), new RegExp(`^no ${pidOf(lab, "lost")} LOST ${forgotten}$`, "m"));
});

test("faults that a proxy injects show, in the proxy's taps and in the client's", { skip, timeout: 240_000 }, async (t) => {
  const faults = { drop: "LOST", double: "DOUBLED", hold: "SWAPPED" };
  const lab = await Lab.start(t, { proxies: 3, options: Object.keys(faults).map((kind) => ({ inject: [`${kind}:0.15`], seed: 3 })) });
  for (const [i, kind] of Object.keys(faults).entries()) {
    const client = await lab.client(kind, i % 2 ? ["polling"] : ["websocket"]);
    await lab.connect(client, "a", i);
    await lab.join(client, "r");
  }
  await lab.publish(...events(40), ...Array(5).fill({ rooms: ["r"], data: ["bytes", { $b: "AAEC" }] }));
  const { report, truth, joined } = await lab.judge();
  assert.deepEqual(joined, truth);
  assert.ok(report.notes > 6);
  for (const [kind, verdict] of Object.entries(faults)) assert.match(joined.join("\n"), new RegExp(`^no ${pidOf(lab, kind)} ${verdict} `, "m"));
});

test("connections that a proxy cuts are recovered", { skip, timeout: 240_000 }, async (t) => {
  const lab = await Lab.start(t, { proxies: 2, options: [{ inject: ["cut:0.1"], seed: 9 }, {}] });
  const client = await lab.client("cut");
  // by the other proxy, first and whenever events were missed: without an offset there is no recovery, and an event that
  // comes again, and is cut off before the reply to the CONNECT, is nobody's (ORPHAN)
  await lab.connect(client, "a", 1);
  await lab.join(client, "r");
  await lab.publish(...events(1));
  for (let i = 0; i < 10; i++) {
    await lab.quiet();
    if (i === 0 || !(await lab.info(client)).connected) {
      await lab.cut(client);
      await lab.connect(client, "b", 1);
      await lab.quiet();
      await lab.cut(client);
      await lab.connect(client, "a");
    }
    await lab.publish(...events(5));
  }
  await lab.quiet();
  if (!(await lab.info(client)).connected) await lab.connect(client, "b", 1);
  const { report, truth, joined } = await lab.judge();
  const cuts = report.notes - 3; // each of three journals has one of what is injected
  assert.ok(cuts >= 3);
  assert.ok(lab.infos[0].recovered >= 2 * cuts);
  assert.deepEqual(joined, truth);
  assert.match(joined.at(-1), /^sessions=1 yes=1 no=0$/);
});

const untilGot = (lab, client, count) => until(async () => (await lab.info(client)).got >= count, `${count} events`);

for (const [name, transports] of Object.entries(TRANSPORTS)) {
  test(`30 cuts in bursts over ${name} show no doubled event`, { skip, timeout: 400_000 }, async (t) => {
    const lab = await Lab.start(t, { latency: 15 });
    const chance = splitmix64(BigInt(transports.length));
    const clients = [];
    for (let i = 0; i < 5; i++) {
      const client = await lab.client(`c${i}`, transports);
      await lab.connect(client, "a");
      await lab.join(client, "r");
      clients.push(client);
    }
    for (let round = 0; round < 6; round++) {
      const burst = lab.nodes.b.ask("burst", { n: 60, rooms: ["r"], size: 400 });
      await Promise.all(
        clients.map(async (client) => {
          await sleep(20 + chance.fraction() * 250);
          await lab.cut(client);
          await lab.connect(client, "ba"[round % 2]);
        }),
      );
      await burst;
    }
    const { report, truth, joined } = await lab.judge({ words: ["--whole"] });
    t.diagnostic(`${report.trimmed} frames trimmed, ${report.overlapped} overlapped, ${lab.infos.reduce((sum, it) => sum + it.recovered, 0)} recoveries`);
    assert.match(joined.at(-1), /^sessions=5 yes=5 no=0$/, joined.join("\n"));
    assert.deepEqual(joined, truth);
    assert.equal(lab.infos.reduce((sum, it) => sum + it.recovered, 0), 30);
    assert.ok(report.trimmed > 0);
    // the same journals without acknowledgements and trimming are answered DOUBLED
    const untrimmed = lab.again({ trimming: false });
    assert.match(untrimmed.joined.join("\n"), / (DOUBLED|WINDOW) /);
  });
}
