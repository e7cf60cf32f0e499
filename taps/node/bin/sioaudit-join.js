#!/usr/bin/env node
"use strict";

const { parseArgs } = require("node:util");
const { join } = require("../lib/join");
const { readKey } = require("../lib/redact");
const { version } = require("../package.json");

const HELP = `Usage: sioaudit-join JOURNAL.. --into FOLDER [options]

Makes the taps of clients (c1.tap, c2.tap, ..) of the journals that sioaudit-proxy has written, all of one recording.

  --into FOLDER     where the taps are written; a file that is there already is refused
  --nodes TAP..     taps of nodes, and of the stream, to be put beside them (to the next option)
  --only-tapped     leave out of the nodes' taps the sessions that no client's tap has
  --redact KEYFILE  replace payloads, rooms and pids by hashes with the key in this file, in all taps that are written
  --prefix NAME     what the names of the clients' taps begin with (c)
  --json            print the report as JSON
  --version         print the version
  -h, --help        print this

Status: 0 joined; 1 joined, but something is missing, as the report says; 2 wrong arguments, or a file that can't be read.
`;

const OPTIONS = {
  into: { type: "string" },
  nodes: { type: "string", multiple: true },
  "only-tapped": { type: "boolean", default: false },
  redact: { type: "string" },
  prefix: { type: "string", default: "c" },
  json: { type: "boolean", default: false },
  version: { type: "boolean" },
  help: { type: "boolean", short: "h" },
};

// `--nodes` takes all words up to the next option
function spread(words) {
  const spread = [];
  let nodes = false;
  for (const word of words) {
    if (word.startsWith("-")) nodes = word === "--nodes";
    else if (nodes) {
      spread.push(`--nodes=${word}`);
      continue;
    }
    if (word !== "--nodes") spread.push(word);
  }
  return spread;
}

function words() {
  const { values, positionals } = parseArgs({ args: spread(process.argv.slice(2)), options: OPTIONS, allowPositionals: true });
  if (values.help || values.version) return values;
  if (values.into === undefined) throw new Error("--into FOLDER is missing");
  if (positionals.length === 0) throw new Error("no JOURNAL is given");
  if (!/^[A-Za-z0-9_.-]{1,20}$/.test(values.prefix)) throw new Error("--prefix takes 1 to 20 of A-Za-z0-9_.-");
  if (values["only-tapped"] && values.nodes === undefined) throw new Error("--only-tapped needs --nodes TAP..");
  return {
    journals: positionals,
    into: values.into,
    nodes: values.nodes,
    onlyTapped: values["only-tapped"],
    redact: values.redact === undefined ? undefined : readKey(values.redact),
    prefix: values.prefix,
    json: values.json,
  };
}

function told(report) {
  const lines = [];
  for (const { client, connection, proxy, why } of report.gaps) {
    lines.push(`gap ${client ?? "-"} connection ${connection} of ${proxy}: ${why}${client ? "; its tap ends there" : ""}`);
  }
  for (const warning of report.warnings) lines.push(`warning ${warning}`);
  if (report.notes > 0) lines.push(`warning faults were injected: ${report.notes} notes`);
  lines.push(
    `journals=${report.journals} connections=${report.connections} clients=${report.clients} nobody=${report.nobody} ` +
      `sessions=${report.sessions} left-out=${report.leftOut}`,
    `packets=${report.packets} trimmed=${report.trimmed} overlapped=${report.overlapped} gaps=${report.gaps.length}`,
  );
  return `${lines.join("\n")}\n`;
}

function main() {
  let options;
  try {
    options = words();
    if (options.help || options.version) {
      process.stdout.write(options.help ? HELP : `${version}\n`);
      return 0;
    }
    const report = join(options);
    process.stdout.write(options.json ? `${JSON.stringify(report)}\n` : told(report));
    return report.gaps.length > 0 || report.warnings.length > 0 ? 1 : 0;
  } catch (error) {
    process.stderr.write(`sioaudit-join: ${error.message}\nTry sioaudit-join --help\n`);
    return 2;
  }
}

process.exitCode = main();
