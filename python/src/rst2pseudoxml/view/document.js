"use strict";
const $ = id => document.getElementById(id);
const LINE_END = /\r\n|[\n\r\x1c-\x1e\x85\u2028\u2029]/; // as the program reads lines
const MOST_PIXELS = 1e7; // browsers don't make an element much taller
const MOST_PRINTED = 20000; // rows
const SHORT = 300, SHORT_LINE = 2000; // characters of a text, and of a line, that isn't shown whole
const LEVELS = ["INFO", "WARNING", "ERROR", "SEVERE"];
const LOST = "rst-view doesn't answer; this page shows what it last read.";
let doc; // what is shown
let last; // the tree that was shown last, and where the reader was in it
let marked = null; // the lines that are marked
let near = -1; // the element of the line that is pointed at
let current = null; // the message that was gone to
const hidden = new Set(); // the levels whose messages aren't shown
let printing = false, lost = false;

/** A text in which control characters, and those that turn the direction of writing, can be seen. */
function visible(text) {
  const numbered = c => `⟨U+${(c.charCodeAt(0) + 0x10000).toString(16).slice(1).toUpperCase()}⟩`;
  return text.replace(/[\0-\x08\x0b-\x1f\x7f]/g, c => String.fromCharCode(c === "\x7f" ? 0x2421 : 0x2400 + c.charCodeAt(0)))
    .replace(/[\x80-\x9f\u061c\u200e\u200f\u2028-\u202e\u2066-\u2069]/g, numbered);
}
/** An element of the page. What stands in it is text, never markup. */
function make(tag, className, text = "", attributes = {}) {
  const element = document.createElement(tag);
  element.className = className;
  element.textContent = visible(String(text));
  for (const [name, value] of Object.entries(attributes)) element.setAttribute(name, value);
  return element;
}
const more = text => make("button", "more", text, {tabindex: -1});

/** The document tree as lists over its nodes in the order of the text. A text alone in its element has no node of its own. */
function flatten(root, source) {
  const t = {raw: [], kind: [], depth: [], parent: [], place: [], next: [], cell: [], line: [], first: [], last: [], end: []};
  const visit = (node, parent, depth, place, kind, cell) => {
    const i = t.raw.push(node) - 1, isText = typeof node === "string";
    if (isText && kind === BLOCK) kind = INLINE;
    if (node[0] === "system_message" && !isText) kind = MESSAGE;
    const line = isText || kind === INLINE ? 0 : node[1], own = kind === BLOCK ? line : 0;
    t.kind.push(kind); t.depth.push(depth); t.parent.push(parent); t.place.push(place); t.next.push(i + 1); t.cell.push(cell);
    t.line.push(line); t.first.push(own || Infinity); t.end.push(own && ownEnd(t, i, source));
    t.last.push(own && Math.max(t.end[i], reached(t, i, source)));
    if (isText || alone(node) !== null) return i;
    const inside = kind === BLOCK && TEXTUAL.has(node[0]) ? INLINE : kind;
    for (let k = 3; k < node.length; k++) {
      const child = visit(node[k], i, depth + 1, k - 2, inside, node[0] === "entry" ? i : cell);
      t.first[i] = Math.min(t.first[i], t.first[child]);
      t.last[i] = Math.max(t.last[i], t.last[child]);
    }
    t.next[i] = t.raw.length;
    return i;
  };
  t.isSubstituted = Boolean(root) && bringsLineEnds(root);
  if (root) visit(root, -1, 0, 1, BLOCK, -1);
  return t;
}
/** The text of an element that holds nothing else; null where there is none. */
const alone = node => node.length === 4 && typeof node[3] === "string" ? node[3] : null;

/** The text in a node, as far as it is wanted. */
function textIn(node, most) {
  if (typeof node === "string") return node;
  let text = "";
  for (let k = 3; k < node.length && text.length < most; k++) text += (text && typeof node[k] !== "string" ? " " : "") + textIn(node[k], most);
  return text;
}
/** The attributes of an element as the program prints them. */
function attributesOf(node) {
  const shown = value => Array.isArray(value) ? value.map(one => one.replace(/[ \\]/g, "\\$&")).join(" ") : value;
  return Object.entries(node[2]).map(([name, value]) => `${name}="${shown(value)}"`).join(" ");
}

/** What is shown: the lines of the source, the tree, the messages and where they are. */
function read(data) {
  const source = new Source(data.source, data.tab_width), {lines} = source, t = flatten(data.tree, source), count = t.raw.length;
  const nodes = new Map(), names = new Set();
  const owner = new Int32Array(lines.length + 1).fill(-1), starts = []; // the innermost element that begins last, of each line
  const shut = new Uint8Array(count), keyOf = (line, level, text) => `${line} ${level} ${text}`;
  t.raw.forEach((node, i) => {
    const line = t.line[i];
    if (typeof node === "string") return;
    names.add(node[0]);
    if (node[0] === "system_message") {
      shut[i] = 1;
      const key = keyOf(line, node[2].level, textIn(node[3] ?? "", Infinity));
      nodes.set(key, [...nodes.get(key) ?? [], i]);
    } else if (t.kind[i] === BLOCK && line && line <= lines.length && !(t.depth[i] <= t.depth[owner[line]])) owner[line] = i;
  });
  for (let line = 1; line <= lines.length; line++) {
    if (owner[line] >= 0) starts.push(line);
    else owner[line] = line > 1 ? owner[line - 1] : count ? 0 : -1;
  }
  const messages = data.messages.map(m => ({...m, node: nodes.get(keyOf(m.line, m.level, m.text))?.shift() ?? -1}));
  if (data.refused) messages.push({...data.refused, type: "REFUSED", node: -1});
  const notes = new Map();
  for (const message of messages) {
    message.at = Math.min(message.line || 1, lines.length);
    notes.set(message.at, [...notes.get(message.at) ?? [], message]);
  }
  messages.sort((a, b) => a.at - b.at);
  const messageAt = new Map(messages.map(message => [message.node, message]));
  return {...t, data, source, lines, names, owner, starts, messages, messageAt, notes, shut, whole: new Uint8Array(count), wholeLines: new Set()};
}
const messageOf = node => doc.messageAt.get(node) ?? null;
const isShown = message => message !== null && !hidden.has(message.type);
/** The path of a node, as in XPath: each step has its number among those with its name. */
function pathOf(id) {
  const name = i => typeof doc.raw[i] === "string" ? "text()" : doc.raw[i][0], steps = [];
  for (let i = id; i > 0; i = doc.parent[i]) {
    let number = 0;
    for (let k = doc.parent[i] + 1; k <= i; k = doc.next[k]) number += name(k) === name(i);
    steps.unshift(`${name(i)}[${number}]`);
  }
  return [name(0), ...steps].join("/");
}

/** Where the first number above `limit` is in a list that rises. */
function firstOver(list, limit, high = list.length) {
  let low = 0;
  while (low < high) {
    const middle = (low + high) >> 1;
    if (list[middle] > limit) high = middle; else low = middle + 1;
  }
  return low;
}
