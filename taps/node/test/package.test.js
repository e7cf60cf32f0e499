"use strict";

const assert = require("node:assert/strict");
const { execFileSync, spawnSync } = require("node:child_process");
const fs = require("node:fs");
const path = require("node:path");
const { test } = require("node:test");
const { directory } = require("./helpers");

const HERE = path.join(__dirname, "..");
const about = require("../package.json");

test("both module systems have the same names", async () => {
  const required = require("sioaudit-taps");
  const imported = await import("sioaudit-taps");
  assert.deepEqual(Object.keys(imported).sort(), Object.keys(required).sort());
  for (const name of Object.keys(required)) assert.equal(imported[name], required[name]);
  const types = fs.readFileSync(path.join(HERE, about.types), "utf8");
  for (const name of Object.keys(required)) assert.match(types, new RegExp(`export (?:function|class) ${name}\\b`));
});

test("what package.json names is there, and is loaded by nothing else", () => {
  const named = [about.main, about.module, about.types, ...Object.values(about.exports["."].import), ...Object.values(about.exports["."].require)];
  for (const file of named) assert.ok(fs.existsSync(path.join(HERE, file)), file);
  for (const [name, file] of Object.entries(about.bin)) {
    if (!fs.existsSync(path.join(HERE, file))) continue;
    assert.ok(fs.readFileSync(path.join(HERE, file), "utf8").startsWith("#!/usr/bin/env node\n"), name);
    assert.ok(fs.statSync(path.join(HERE, file)).mode & 0o100, name);
  }
  const sources = execFileSync("find", ["lib", "bin", "-name", "*.js"], { cwd: HERE, encoding: "utf8" }).trim().split("\n");
  const loaded = sources.flatMap((file) => [...fs.readFileSync(path.join(HERE, file), "utf8").matchAll(/require\("([^"]+)"\)/g)].map(([, name]) => name));
  const others = new Set(loaded.filter((name) => !name.startsWith(".") && !name.startsWith("node:")));
  for (const name of others) assert.ok(name in about.dependencies, name);
});

const noCompiler = spawnSync("tsc", ["--version"]).status === 0 ? false : "tsc isn't installed";

test("the types are what they say", { skip: noCompiler }, () => {
  const words = ["--noEmit", "--strict", "--target", "es2022", "--module", "nodenext", "--moduleResolution", "nodenext", "--typeRoots", "none", "--lib", "es2022,dom"];
  const { stdout, status } = spawnSync("tsc", [...words, "test/types/use.mts", "test/types/use.cts"], { cwd: HERE, encoding: "utf8" });
  assert.equal(status, 0, stdout);
});

test("the package where it is installed, and the types as older compilers look for them", (t) => {
  const dir = directory(t);
  fs.mkdirSync(path.join(dir, "node_modules"));
  fs.symlinkSync(HERE, path.join(dir, "node_modules/sioaudit-taps"));
  const parts = { "sioaudit-taps": "tapClient", "sioaudit-taps/proxy": "startProxy", "sioaudit-taps/join": "join" };
  for (const [part, name] of Object.entries(parts)) {
    const required = `if (typeof require("${part}").${name} !== "function") process.exit(1)`;
    const imported = `import { ${name} } from "${part}"; if (typeof ${name} !== "function") process.exit(1)`;
    assert.equal(spawnSync(process.execPath, ["--input-type=commonjs", "-e", required], { cwd: dir }).status, 0, required);
    assert.equal(spawnSync(process.execPath, ["--input-type=module", "-e", imported], { cwd: dir }).status, 0, imported);
  }
  const inside = spawnSync(process.execPath, ["-e", 'require("sioaudit-taps/lib/tap.js")'], { cwd: dir, encoding: "utf8" });
  assert.match(inside.stderr, /ERR_PACKAGE_PATH_NOT_EXPORTED/);
  if (noCompiler) return;
  fs.copyFileSync(path.join(__dirname, "types/use.cts"), path.join(dir, "use.ts"));
  const words = ["--noEmit", "--strict", "--target", "es2022", "--module", "commonjs", "--moduleResolution", "node", "--typeRoots", "none", "--lib", "es2022,dom"];
  const { stdout, status } = spawnSync("tsc", [...words, "use.ts"], { cwd: dir, encoding: "utf8" });
  assert.equal(status, 0, stdout);
});

const noNpm = spawnSync("npm", ["--version"]).status === 0 ? false : "npm isn't installed";

test("what npm packs", { skip: noNpm }, () => {
  const { stdout } = spawnSync("npm", ["pack", "--dry-run", "--json", "--offline"], { cwd: HERE, encoding: "utf8" });
  const packed = JSON.parse(stdout)[0].files.map((it) => it.path).sort();
  const there = execFileSync("find", ["lib", "bin", "-type", "f"], { cwd: HERE, encoding: "utf8" }).trim().split("\n");
  assert.deepEqual(packed, ["PROXY.md", "README.md", "package.json", ...there].sort());
});

const PAGES = ["README.md", "../../docs/TAPPING.md"];

test("what the pages say installs the package with all that it needs", { skip: noNpm }, (t) => {
  const dir = directory(t);
  const from = path.join(dir, "taps/node");
  fs.cpSync(HERE, from, { recursive: true, filter: (it) => !/\/(?:test|node_modules)$/.test(it) });
  // stand-ins, so that no registry is asked
  const needed = Object.keys(about.dependencies);
  for (const name of needed) {
    fs.mkdirSync(path.join(dir, name));
    fs.writeFileSync(path.join(dir, name, "package.json"), JSON.stringify({ name, version: "1.0.0" }));
  }
  const dependencies = Object.fromEntries(needed.map((name) => [name, `file:${path.join(dir, name)}`]));
  fs.writeFileSync(path.join(from, "package.json"), JSON.stringify({ ...about, dependencies }));
  const env = { ...process.env, npm_config_cache: path.join(dir, "cache"), npm_config_offline: "true", npm_config_audit: "false", npm_config_fund: "false" };
  for (const page of PAGES) {
    const [command] = /^npm install .*$/m.exec(fs.readFileSync(path.join(HERE, page), "utf8"));
    const [, ...words] = command.replace("/path/to/sioaudit/taps/node", from).split(" ");
    const app = fs.mkdtempSync(path.join(dir, "app-"));
    const { status, stderr } = spawnSync("npm", words, { cwd: app, env, encoding: "utf8" });
    assert.equal(status, 0, stderr);
    const { resolve } = module.constructor.createRequire(path.join(app, "node_modules/sioaudit-taps/package.json"));
    for (const name of needed) assert.ok(resolve(`${name}/package.json`).startsWith(app), `${page}: ${name}`);
  }
});
