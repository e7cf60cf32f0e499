import taps = require("sioaudit-taps");
import proxies = require("sioaudit-taps/proxy");
import joins = require("sioaudit-taps/join");

const tap: taps.Tap<"client"> = new taps.Tap({ name: "c1", of: "client", dir: "." });
tap.write({ k: "lost" });
const started: Promise<proxies.Proxy> = proxies.startProxy({ nodes: ["http://127.0.0.1:3000"], journal: "p.journal", redact: taps.readKey("key") });
const report: joins.JoinReport = joins.join({ journals: ["p.journal"], into: "taps" });
export { report, started };
