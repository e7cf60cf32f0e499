#!/usr/bin/env node
"use strict";

const path = require("node:path");
const { parseArgs } = require("node:util");
const { version } = require("../package.json");

const HELP = `Usage: sioaudit-stream-tap --out FILE [options]

Records a Redis stream that @socket.io/redis-streams-adapter writes, from its oldest entry on, as a tap for sioaudit.
Start it before the nodes; end it with SIGINT or SIGTERM after them: it then reads what the stream has by that moment,
and ends. A second signal ends it at once.

  --out FILE        the tap's file; one that is there already is refused
  --resume          go on in the tap's file, after its last entry
  --redis URL       redis://, rediss://, or unix: and the path of a socket
                    ($REDIS_URL, or else redis://127.0.0.1:6379)
  --key KEY         the stream's key, streamName of the adapter (socket.io)
  --name NAME       the tap's name (st)
  --redact KEYFILE  replace payloads, rooms and pids by hashes with the key in this file, the same for all taps
  --version         print the version
  -h, --help        print this

Status: 0 all was read; 1 the tap ended before its stream, with the reason on standard error; 2 wrong arguments.
`;

const OPTIONS = {
  out: { type: "string" },
  resume: { type: "boolean", default: false },
  redis: { type: "string", default: process.env.REDIS_URL ?? "redis://127.0.0.1:6379" },
  key: { type: "string", default: "socket.io" },
  name: { type: "string", default: "st" },
  redact: { type: "string" },
  version: { type: "boolean" },
  help: { type: "boolean", short: "h" },
};

const say = (text) => process.stderr.write(`sioaudit-stream-tap: ${text}\n`);

function words() {
  try {
    const { values } = parseArgs({ options: OPTIONS });
    if (!values.help && !values.version && values.out === undefined) throw new Error("--out FILE is missing");
    return values;
  } catch (error) {
    say(`${error.message}\nTry sioaudit-stream-tap --help`);
    process.exit(2);
  }
}

async function main(options) {
  // not before the words are known to be right: this takes the most of a start
  const { createClient } = require("redis");
  const { Tap, TapError, readKey, tapStream } = require("../lib/index.js");
  let connected = false;
  const redis = createClient({
    ...(options.redis.startsWith("unix:") ? {} : { url: options.redis }),
    socket: {
      ...(options.redis.startsWith("unix:") ? { path: path.resolve(options.redis.slice("unix:".length).replace(/^\/\/(?=\/)/, "")) } : {}),
      // at the beginning it is told at once that Redis isn't there
      reconnectStrategy: (tries, cause) => (connected ? Math.min(tries * 50, 1000) : (cause ?? new Error("no connection"))),
    },
  });
  let fault;
  redis.on("error", (error) => {
    if (connected && fault === undefined) say(`${error.message}; trying again`);
    fault = error;
  });
  redis.on("ready", () => {
    fault = undefined;
  });
  try {
    await redis.connect();
    await redis.xLen(options.key); // no file is made where the stream can't be read
  } catch (error) {
    say(`Redis: ${(fault ?? error).message}`);
    if (redis.isOpen) await redis.disconnect();
    return 1;
  }
  connected = true;

  const ending = new AbortController();
  for (const signal of ["SIGINT", "SIGTERM"]) {
    process.on(signal, () => {
      if (ending.signal.aborted) process.exit(1);
      ending.abort();
    });
  }
  try {
    const redact = options.redact === undefined ? undefined : readKey(options.redact);
    const tap = new Tap({ name: options.name, of: "stream", file: options.out, resume: options.resume, redact });
    say(`reading ${options.key} into ${options.out}${tap.last === undefined ? "" : ` after ${tap.last}`}`);
    const { entries, last, undecoded } = await tapStream({ redis, key: options.key, tap, signal: ending.signal });
    tap.end();
    say(`${entries === 1 ? "1 entry" : `${entries} entries`}${last === null ? "" : `, the last is ${last}`}`);
    if (undecoded > 0) say(`${undecoded} of them could not be decoded, and are recorded as no events`);
    return 0;
  } catch (error) {
    if (!(error instanceof TapError)) throw error;
    say(`${error.code}: ${error.message}`);
    return 1;
  } finally {
    if (redis.isOpen) await redis.disconnect();
  }
}

const options = words();
if (options.help) process.stdout.write(HELP);
else if (options.version) process.stdout.write(`${version}\n`);
else {
  main(options).then(
    (status) => {
      process.exitCode = status;
    },
    (error) => {
      say(error.message);
      process.exitCode = 1;
    },
  );
}
