// Which lines an element has. The tree has the line at which an element begins; its last line is shown only where it follows from the source.

// The elements that hold text: what is inside them has no line of its own.
const TEXTUAL = new Set(("address attribution author caption classifier comment contact copyright date doctest_block field_name label line " +
  "literal_block math_block option_argument option_string organization paragraph raw revision rubric status subtitle substitution_definition term title " +
  "version").split(" "));
const UNBROKEN = new Set("attribution caption doctest_block line paragraph subtitle title".split(" ")); // they end before a blank line
const OF_ONE_LINE = new Set("classifier colspec field_name label option option_argument option_group option_string term transition".split(" "));
const EXPLICIT = new Set(("admonition attention caution citation comment compound container danger error figure footnote hint image important " +
  "literal_block math_block note raw rubric sidebar substitution_definition target tip topic warning").split(" "));
const GRID = /^\+-[-+]+-\+$/, SIMPLE = /^=+( +=+)+$/; // the borders at which a table begins
const [BLOCK, INLINE, MESSAGE] = [0, 1, 2];

/** The lines of a text, and the numbers of those that aren't blank. */
class Source {
  constructor(text, tabWidth) {
    this.lines = text.split(LINE_END);
    if (this.lines.length > 1 && this.lines.at(-1) === "") this.lines.pop();
    this.tabWidth = tabWidth;
    this.filled = [];
    this.lines.forEach((line, k) => { if (/\P{White_Space}/u.test(line)) this.filled.push(k + 1); });
  }
  /** A line as the program reads it: with spaces for tabs, and without white space at its end. */
  line(number) {
    const line = this.lines[number - 1] ?? "";
    let column = 0, end = line.length;
    const spaces = c => {
      const by = c === "\t" ? this.tabWidth - column % this.tabWidth : 1;
      column += by;
      return "\t\v\f".includes(c) ? " ".repeat(by) : c;
    };
    while (/\p{White_Space}/u.test(line[end - 1] ?? "")) end--;
    return /[\t\v\f]/.test(line) ? line.slice(0, end).replace(/[^]/gu, spaces) : line.slice(0, end);
  }
  indentation(number) { return this.line(number).search(/[^ ]|$/); }
  /** A line without an indentation; an empty text if it is less indented. */
  below(indentation, number) { return this.indentation(number) < indentation ? "" : this.line(number).slice(indentation); }
  /** Where the last line up to a number that isn't blank is in `filled`. */
  filledUpTo(number) { return firstOver(this.filled, number) - 1; }
  /** The last line of the explicit markup that begins a line, or of its lines without a blank one between; 0 if the line begins otherwise. */
  endOfExplicit(first, untilBlank) {
    const left = this.indentation(first), marker = this.below(left, first);
    if (!/^\.\.( |$)/.test(marker)) return 0;
    let at = this.filledUpTo(first), next;
    if (marker === ".." && this.filled[at + 1] !== first + 1) return first;
    while ((next = this.filled[at + 1]) && this.indentation(next) > left && !(untilBlank && next > this.filled[at] + 1)) at++;
    return this.filled[at];
  }
  /** The last border of the table that begins with one at the left of a line; 0 if none does. */
  endOfTable(first) {
    const left = this.indentation(first), row = number => this.below(left, number);
    let last = 0;
    if (GRID.test(row(first))) for (let k = first + 1; /^[+|]/.test(row(k)); k++) if (k > first + 1 && GRID.test(row(k))) last = k;
    if (!SIMPLE.test(row(first))) return last;
    for (let k = first + 1, borders = 0; k <= this.lines.length; k++) {
      if (/^=[= ]*$/.test(row(k)) && (++borders === 2 || row(k + 1) === "")) return k;
    }
    return 0;
  }
}

/** How many line ends the text in a node has. */
function lineEndsIn(node) {
  if (typeof node === "string") return node.split("\n").length - 1;
  return node.reduce((count, child, k) => k < 3 ? 0 : count + lineEndsIn(child), 0);
}
/** Whether a substitution in a tree may bring line ends into a text. */
const bringsLineEnds = node => typeof node !== "string" &&
  (node[0] === "substitution_definition" ? lineEndsIn(node) > 0 : node.some((child, k) => k > 2 && bringsLineEnds(child)));

/** Whether a node is the title of a section or the document, or its subtitle. */
const isUnderlined = (t, i) => /^(sub)?title$/.test(t.raw[i]?.[0]) && /^(section|document)$/.test(t.raw[t.parent[i]][0]);
/** The last line of an element where the form of its first line decides it, else 0. In a table other cells are beside the element. */
function ownEnd(t, i, source) {
  const [tag, line, attributes] = t.raw[i];
  if (OF_ONE_LINE.has(tag)) return line;
  if (isUnderlined(t, i)) return line + 1;
  if (t.cell[i] >= 0) return 0;
  if (tag === "table" || tag === "tgroup") return source.endOfTable(line);
  if (!EXPLICIT.has(tag) || (tag === "literal_block" && attributes.classes?.[0] !== "code")) return 0;
  for (let k = t.parent[i]; k > 0 && !(t.line[k] < line); k = t.parent[k]) if (EXPLICIT.has(t.raw[k][0])) return 0; // that began the line
  return source.endOfExplicit(line, tag === "target");
}
/** A line that an element surely reaches: each line end in its text is one of the source, unless a substitution brought it. */
function reached(t, i, source) {
  const [tag, line] = t.raw[i], count = TEXTUAL.has(tag) ? lineEndsIn(t.raw[i]) : 0;
  return t.isSubstituted && source.lines.slice(line - 1, line + count).some(text => /\|\S/.test(text)) ? line : line + count;
}

/** The first line after `sure` at which something begins that isn't a node's own. */
function nextStart(i, sure) {
  const cell = doc.raw[i][0] === "entry" ? i : doc.cell[i];
  if (cell >= 0) return nextInCell(i, cell, sure);
  const next = doc.starts[firstOver(doc.starts, sure)] ?? doc.lines.length + 1, over = doc.source.line(next - 1);
  const isOverlined = isUnderlined(doc, doc.owner[next]) && over !== "" && over === doc.source.line(next + 1);
  return isOverlined ? next - 1 : next;
}
/** The first line after a node of a cell at which something begins in the cell, else in the rows below it, else after the table. */
function nextInCell(i, cell, sure) {
  for (let k = doc.next[i]; k < doc.next[cell]; k++) if (doc.kind[k] === BLOCK && doc.line[k] > sure) return doc.line[k];
  const row = doc.parent[cell], rows = doc.parent[row], table = tableOf(cell);
  let after = doc.next[row];
  for (let n = doc.raw[cell][2].morerows ?? 0; n > 0 && after < doc.next[rows]; n--) after = doc.next[after];
  for (; after < doc.next[table]; after = doc.next[after]) if (doc.first[after] < Infinity) return doc.first[after];
  return doc.end[table] ? doc.end[table] + 1 : nextStart(table, Math.max(sure, doc.last[table]));
}
const tableOf = cell => doc.parent[doc.parent[doc.parent[doc.parent[cell]]]];
/** Whether a line of the table that a cell is in is a border or a rule, so that no cell has text in it. */
function isBorder(cell, line) {
  const first = doc.line[tableOf(cell)], left = doc.source.indentation(first), row = doc.source.below(left, line);
  return (GRID.test(doc.source.below(left, first)) ? /^\+([-+]+|[=+]+)\+$/ : /^(=[= ]*|-[- ]*)$/).test(row);
}
/** The last line that may be a node's. */
function lastPerhaps(i, sure) {
  const {filled} = doc.source, [tag] = doc.raw[i], cell = doc.cell[i];
  let last = doc.source.filledUpTo(nextStart(i, sure) - 1), at = doc.source.filledUpTo(sure);
  if (cell >= 0 && doc.end[tableOf(cell)]) while (last > at && isBorder(cell, filled[last])) last--;
  if (!UNBROKEN.has(tag)) return filled[last];
  while (at < last && filled[at + 1] === filled[at] + 1) at++;
  return filled[at];
}
/** The lines of a node: from `from` to `sure` they are surely its lines; up to `most` they may be. Null where nothing is known. */
function linesOf(i) {
  const within = doc.kind[i] === INLINE;
  while (doc.kind[i] === INLINE) i = doc.parent[i];
  if (i === 0) return {from: 1, sure: doc.lines.length, most: doc.lines.length};
  const from = doc.kind[i] === MESSAGE ? doc.line[i] : doc.first[i];
  if (!from || from > doc.lines.length) return null;
  if (doc.kind[i] === MESSAGE) return {from, sure: from, most: from};
  const sure = doc.last[i], most = Math.max(sure, doc.end[i] || lastPerhaps(i, sure));
  return {from, sure: within && most > from ? from - 1 : sure, most};
}

const upTo = (a, b) => a === b ? `line ${a}` : `lines ${a} to ${b}`;
/** What the page says of a node's lines. */
function told(i) {
  const name = typeof doc.raw[i] === "string" ? "text" : doc.raw[i][0], at = linesOf(i);
  if (!at) return `${name}: its line isn't known`;
  if (i && !doc.line[i] && doc.kind[i] === BLOCK) return `${name}: its line isn't known; it holds ${upTo(at.from, at.sure)}`;
  if (at.sure < at.from) return `${name}: somewhere in ${upTo(at.from, at.most)}`;
  if (at.sure === at.most) return `${name}: ${upTo(at.from, at.most)}`;
  return `${name}: from line ${at.from}; its end isn't known, at most line ${at.most}`;
}
/** The lines of an element as its row shows them, and as it says them; the last one only if it is known. */
function numbersOf(i) {
  const line = doc.line[i], at = line ? linesOf(i) : null;
  if (!at) return ["", ""];
  if (at.sure < at.most) return [`${line}–`, `from line ${line}`];
  return [at.most > line ? `${line}–${at.most}` : line, upTo(line, at.most)];
}
