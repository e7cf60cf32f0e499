#!/usr/bin/env node
"use strict";

const { parseArgs } = require("node:util");
const { startProxy } = require("../lib/proxy");
const { readKey } = require("../lib/redact");
const { version } = require("../package.json");

const HELP = `Usage: sioaudit-proxy --journal FILE [options] NODE..

A reverse proxy in front of the nodes of a Socket.IO cluster (URLs, as http://10.0.0.5:3000) that records what it passes on,
for sioaudit-join. It ends with SIGINT or SIGTERM.

  --journal FILE         the journal; one that is there already is refused
  --listen [HOST:]PORT   where clients connect (127.0.0.1:0, a free port; it is printed)
  --path PATH            Engine.IO's path (/socket.io/); all else is passed on without a record
  --max-body BYTES       the largest body and message (67108864); past it a connection is ended
  --max-waiting BYTES    what may wait for a slow side before the other one has to wait too (1048576)
  --stall SECONDS        a side that takes nothing for so long while something waits ends its connection (60)
  --no-ack               send no pings: then all that a client was sent counts as not surely taken
  --redact KEYFILE       replace payloads, rooms and pids by hashes with the key in this file, the same for all taps
  --inject FAULT:P       for trying a cluster: drop, double, hold or cut a frame with a probability, as drop:0.01;
                         may be given several times
  --seed N               what the faults are chosen by (1)
  --version              print the version
  -h, --help             print this

Status: 0 ended by a signal, with its journal whole; 1 the journal could not be written; 2 wrong arguments, or it can't listen
there: no journal was made.
`;

const OPTIONS = {
  journal: { type: "string" },
  listen: { type: "string", default: "127.0.0.1:0" },
  path: { type: "string" },
  "max-body": { type: "string" },
  "max-waiting": { type: "string" },
  stall: { type: "string" },
  "no-ack": { type: "boolean", default: false },
  redact: { type: "string" },
  inject: { type: "string", multiple: true },
  seed: { type: "string" },
  version: { type: "boolean" },
  help: { type: "boolean", short: "h" },
};

const say = (text) => process.stderr.write(`sioaudit-proxy: ${text}\n`);

function number(name, word) {
  if (word === undefined) return undefined;
  if (!/^[1-9]\d{0,14}$/.test(word)) throw new Error(`--${name} takes a whole number, not ${word}`);
  return Number(word);
}

function words() {
  const { values, positionals } = parseArgs({ options: OPTIONS, allowPositionals: true });
  if (values.help || values.version) return values;
  if (values.journal === undefined) throw new Error("--journal FILE is missing");
  if (positionals.length === 0) throw new Error("no NODE is given");
  const [, host, port] = /^(?:(.+):)?(\d{1,5})$/.exec(values.listen) ?? [];
  if (port === undefined || Number(port) > 65535) throw new Error(`--listen takes [HOST:]PORT, not ${values.listen}`);
  const stall = number("stall", values.stall);
  return {
    nodes: positionals,
    journal: values.journal,
    host: host?.replace(/^\[|\]$/g, ""),
    port: Number(port),
    path: values.path,
    maxBody: number("max-body", values["max-body"]),
    maxWaiting: number("max-waiting", values["max-waiting"]),
    stall: stall && stall * 1000,
    acknowledged: !values["no-ack"],
    redact: values.redact === undefined ? undefined : readKey(values.redact),
    inject: values.inject,
    seed: values.seed,
    log: say,
  };
}

async function main() {
  let options;
  let proxy;
  try {
    options = words();
    if (options.help || options.version) {
      process.stdout.write(options.help ? HELP : `${version}\n`);
      return;
    }
    proxy = await startProxy(options);
  } catch (error) {
    say(error.code === "EEXIST" ? `${error.path} is there already: a journal is used once` : error.message);
    say("Try sioaudit-proxy --help");
    process.exitCode = 2;
    return;
  }
  process.stdout.write(`listening on ${proxy.url}\n`);
  let ending = false;
  const end = async () => {
    if (ending) return;
    ending = true;
    await proxy.close();
    const { connections, frames, gaps, stalled } = proxy.counts;
    say(`${connections} connections, ${frames} packets to clients, ${gaps} gaps, ${stalled} ended since they took nothing`);
    process.exit(proxy.journal.error ? 1 : 0);
  };
  process.on("SIGTERM", end);
  process.on("SIGINT", end);
}

main();
