"use strict";

// Where the texts of a JSON text stand. It is read as the auditor reads it (docs/FORMAT.md, "Which JSON is read").
//
// A node is a text, { text, from, to }, its quotes at `from` and before `to`; { items }; { members: [[name, node], ..] },
// where names are texts; or { token } (a number, true, false or null).

const DEPTH = 127;
const HALF_PAIR = /\p{Surrogate}/u;
const BLANK = /[ \t\n\r]*/y;
const LITERAL = /(?:true|false|null)/y;
const NUMBER = /-?(?:0|[1-9][0-9]*)(?:\.[0-9]+)?(?:[eE][+-]?[0-9]+)?/y;

class Parser {
  constructor(json) {
    this.json = json;
    this.at = 0;
  }

  match(pattern) {
    pattern.lastIndex = this.at;
    const found = pattern.exec(this.json);
    if (found === null) return undefined;
    this.at = pattern.lastIndex;
    return found[0];
  }

  // passes over a character and the blanks around it, if it is there
  sign(sign) {
    this.match(BLANK);
    if (this.json[this.at] !== sign) return false;
    this.at++;
    this.match(BLANK);
    return true;
  }

  // whether an odd number of backslashes stands before a place
  escaped(place) {
    let from = place;
    while (this.json[from - 1] === "\\") from--;
    return (place - from) % 2 === 1;
  }

  text() {
    if (this.json[this.at] !== '"') throw new SyntaxError("no text");
    let end = this.at;
    do end = this.json.indexOf('"', end + 1);
    while (end !== -1 && this.escaped(end));
    if (end === -1) throw new SyntaxError("no end of a text");
    const from = this.at;
    const to = end + 1;
    const text = JSON.parse(this.json.slice(from, to)); // throws a SyntaxError of its own
    this.at = to;
    if (HALF_PAIR.test(text)) throw new SyntaxError("half a surrogate pair");
    return { text, from, to };
  }

  value(depth) {
    const first = this.json[this.at];
    if (first === '"') return this.text();
    if (first === "[" || first === "{") {
      if (depth === DEPTH) throw new SyntaxError("nested too deep");
      return first === "[" ? this.items(depth + 1) : this.members(depth + 1);
    }
    const token = this.match(LITERAL) ?? this.match(NUMBER);
    if (token === undefined || !(/^[tfn]/.test(token) || Number.isFinite(Number(token)))) throw new SyntaxError("no value");
    return { token };
  }

  items(depth) {
    const items = [];
    this.sign("[");
    if (this.sign("]")) return { items };
    do items.push(this.value(depth));
    while (this.sign(","));
    if (!this.sign("]")) throw new SyntaxError("no end of an array");
    return { items };
  }

  members(depth) {
    const members = [];
    this.sign("{");
    if (this.sign("}")) return { members };
    do {
      const name = this.text();
      if (!this.sign(":")) throw new SyntaxError("no value of a member");
      members.push([name, this.value(depth)]);
    } while (this.sign(","));
    if (!this.sign("}")) throw new SyntaxError("no end of an object");
    return { members };
  }
}

/** The tree of a JSON text; undefined where the auditor doesn't read it. */
function parse(json) {
  const parser = new Parser(json);
  try {
    parser.match(BLANK);
    const tree = parser.value(0);
    parser.match(BLANK);
    return parser.at === json.length ? tree : undefined;
  } catch (error) {
    if (error instanceof SyntaxError) return undefined;
    throw error;
  }
}

module.exports = { parse };
