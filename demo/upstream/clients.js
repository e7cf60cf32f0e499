"use strict";

// Clients that talk in rooms, send bytes, and use two namespaces: node clients.js URL COUNT. The proxy cuts their
// connections. With SIGTERM they say nothing any more, wait until all has arrived, and go. NOT RUN where it was made
// (demo/compose.yaml).

const { Manager } = require("socket.io-client");

const [url, count] = process.argv.slice(2);
const transports = [["websocket"], ["polling"], ["polling", "websocket"]];
const managers = [];
const talking = [];

for (let i = 0; i < Number(count); i++) {
  const manager = new Manager(url, { transports: transports[i % 3], reconnectionDelay: 300, reconnectionDelayMax: 1200 });
  managers.push(manager);
  for (const nsp of i % 2 ? ["/", "/chat"] : ["/"]) {
    const socket = manager.socket(nsp);
    let said = 0;
    const talk = () => {
      const bytes = Buffer.alloc(Math.floor(Math.random() * 256), said);
      const rooms = [[], ["red"], ["green", "blue"]][said % 3];
      if (socket.connected) socket.emit("say", rooms, ++said, 'é ⬢ "word"', ...(said % 4 ? [] : [bytes]));
    };
    talking.push(setInterval(talk, 300 + Math.random() * 900));
  }
}

process.once("SIGTERM", () => {
  for (const it of talking) clearInterval(it);
  setTimeout(() => {
    for (const it of managers) it._close();
    process.exit();
  }, 5000);
});
