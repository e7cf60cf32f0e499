"use strict";

// Faults on purpose, for trying a staging cluster: frames that are dropped, doubled, held behind the next one, or at which
// the connection is cut.

const { frameOf } = require("./packets");

const KINDS = ["drop", "double", "hold", "cut"];
const MASK = (1n << 64n) - 1n;
const GOLDEN = 0x9e3779b97f4a7c15n;

/**
 * SplitMix64 (Steele, Lea, Flood 2014): the state goes up by 0x9e3779b97f4a7c15 each time, and a number is the state
 * mixed, of which the upper 53 bits are a fraction.
 *
 * @param {bigint} seed
 */
function splitmix64(seed) {
  let state = seed & MASK;
  const next = () => {
    state = (state + GOLDEN) & MASK;
    let z = state;
    z = ((z ^ (z >> 30n)) * 0xbf58476d1ce4e5b9n) & MASK;
    z = ((z ^ (z >> 27n)) * 0x94d049bb133111ebn) & MASK;
    return z ^ (z >> 31n);
  };
  return { next, fraction: () => Number(next() >> 11n) / 2 ** 53 };
}

/**
 * Reads `drop:0.01`.
 *
 * @param {string} word
 */
function parseFault(word) {
  const [, kind, number] = /^([a-z]+)[:=](\d*\.?\d+(?:e-?\d+)?)$/.exec(word) ?? [];
  if (!KINDS.includes(kind)) throw new RangeError(`--inject takes ${KINDS.join(", ")} and a probability, as in drop:0.01, not ${word}`);
  const probability = Number(number);
  if (!(probability >= 0 && probability <= 1)) throw new RangeError(`--inject ${word}: a probability is between 0 and 1`);
  return { kind, probability };
}

/**
 * The faults of one connection. Its numbers are those of SplitMix64 with the first number of SplitMix64(seed) xor the
 * connection's number as the seed, so they don't depend on what other connections do. Each frame draws one number for each
 * fault that is asked for, in the order drop, double, hold, cut; the first below its probability happens.
 *
 * A frame is an event without acknowledgement whose last argument is a text, with its attachments. Packets are
 * `{ text }` or `{ bytes }`; a text that begins with `b` is an attachment too.
 */
class Injector {
  #faults;
  #random;
  #open; // a frame whose attachments haven't all come
  #held;

  constructor(faults, seed, connection) {
    this.#faults = [...faults].sort((a, b) => KINDS.indexOf(a.kind) - KINDS.indexOf(b.kind));
    this.#random = splitmix64(splitmix64(BigInt(seed)).next() ^ BigInt(connection));
  }

  /**
   * What goes on to the client when this packet has come.
   *
   * @returns {{ packets: object[], note?: { kind: string, text: string }, cut: boolean }}
   */
  push(packet) {
    const frame = this.#frame(packet);
    if (frame === undefined) return { packets: [], cut: false };
    if (!Array.isArray(frame)) return { packets: [packet], cut: false };
    const kind = this.#fault();
    const note = kind && { kind, text: frame[0].text };
    if (kind === "cut") return { packets: [], note, cut: true };
    if (kind === "drop") return { packets: [], note, cut: false };
    if (kind === "hold") {
      this.#held = frame;
      return { packets: [], note, cut: false };
    }
    const held = this.#held ?? [];
    this.#held = undefined;
    return { packets: [...frame, ...(kind === "double" ? frame : []), ...held], note, cut: false };
  }

  // the packets of a frame that is whole now; the packet where it is none's; undefined where the frame has to wait
  #frame(packet) {
    const attachment = packet.bytes !== undefined || packet.text.startsWith("b");
    if (this.#open !== undefined && attachment) {
      this.#open.packets.push(packet);
      if (--this.#open.missing > 0) return undefined;
      const { packets } = this.#open;
      this.#open = undefined;
      return packets;
    }
    const frame = attachment ? undefined : frameOf(packet.text);
    if (frame === undefined) return packet;
    if (frame.attachments === 0) return [packet];
    this.#open = { packets: [packet], missing: frame.attachments };
    return undefined;
  }

  #fault() {
    let happens;
    for (const { kind, probability } of this.#faults) {
      const hit = this.#random.fraction() < probability;
      if (hit && happens === undefined && !(kind === "hold" && this.#held !== undefined)) happens = kind;
    }
    return happens;
  }
}

module.exports = { Injector, KINDS, parseFault, splitmix64 };
