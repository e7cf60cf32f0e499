"use strict";

// A node of upstream's socket.io with its tap: node node.js NAME. NOT RUN where it was made (demo/compose.yaml).

const { createAdapter } = require("@socket.io/redis-streams-adapter");
const { createClient } = require("redis");
const { tapped } = require("sioaudit-taps");
const { Server } = require("socket.io");

async function main(name) {
  const redis = createClient({ url: process.env.REDIS_URL });
  redis.on("error", (error) => console.error(error.message));
  await redis.connect();
  const io = new Server(3000, { connectionStateRecovery: {}, transports: ["polling", "websocket"] });
  const adapter = tapped(createAdapter(redis), { dir: "/taps", name, redis, inOrder: true });
  io.adapter(adapter);
  for (const nsp of ["/", "/chat"]) {
    io.of(nsp).on("connection", (socket) => {
      if (!socket.recovered) socket.join(["red", "green", "blue"][Math.floor(Math.random() * 3)]);
      socket.on("say", (rooms, ...args) => io.of(nsp).to(rooms).emit("said", ...args));
    });
  }
  process.once("SIGTERM", () => io.close(() => adapter.end().then(() => process.exit())));
}

main(process.argv[2]);
