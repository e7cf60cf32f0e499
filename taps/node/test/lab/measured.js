"use strict";

// A proxy in a process of its own, started with --expose-gc, that says how much memory it uses.

const { startProxy } = require("../../lib/proxy");

async function main([journal, ...nodes]) {
  const proxy = await startProxy({ journal, nodes });
  process.on("message", () => {
    proxy.sweep(Infinity);
    global.gc();
    process.send({ heap: process.memoryUsage().heapUsed, kept: proxy.connections.size + proxy.bridges.size });
  });
  process.on("disconnect", async () => {
    await proxy.close();
    process.exit();
  });
  process.send(proxy.url);
}

main(process.argv.slice(2));
