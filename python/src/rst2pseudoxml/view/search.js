// The search box: a text, or an element by its tag and attributes, as the program prints it.
const ATTRIBUTE = /([\w:.-]+)=("[^"]*"|[^\s">]*)/g;
const ELEMENT = /^<(\w+)((?:\s+[\w:.-]+=(?:"[^"]*"|[^\s">]*))*)\s*(>?)$/;
const ATTRIBUTES = /^[\w:.-]+=(?:"[^"]*"|[^\s">]*)(?:\s+[\w:.-]+=(?:"[^"]*"|[^\s">]*))*$/;

/** A text in the form in which texts are compared: white space and case don't count. */
const folded = text => text.replace(/\s+/g, " ").toLowerCase();
/** The whole text in a node, as it is read. */
const textOf = node => typeof node === "string" ? node : node.slice(3).map(textOf).join("");

/** What is asked for: a text, and where it has the form of one an element with a tag and attributes. */
function asked(given) {
  const element = ELEMENT.exec(given), attributes = element ? element[2] : ATTRIBUTES.test(given) ? given : null;
  return {
    text: folded(/^".+"$/.test(given) ? given.slice(1, -1) : given),
    tag: element ? element[1].toLowerCase() : "",
    isWhole: element !== null && element[3] === ">",
    attributes: attributes === null ? null : [...attributes.matchAll(ATTRIBUTE)].map(([, name, value]) => [name, value]),
  };
}
/** Whether an element has an attribute: in quotes its value or a part of a list, else a part of the value. */
function hasAttribute(node, name, wanted) {
  const value = node[2][name];
  if (value === undefined) return false;
  const printed = attributesOf([, , {[name]: value}]).slice(name.length + 2, -1);
  if (!wanted.startsWith('"')) return folded(printed).includes(folded(wanted));
  return [printed, value].flat().some(one => `"${one}"` === wanted);
}
/** The elements with a tag and attributes. A tag that no element has is a part of one, unless a `>` ends it. */
function elementsWith({tag, isWhole, attributes}) {
  const isTag = isWhole || doc.names.has(tag) ? name => name === tag : name => name.includes(tag);
  return doc.raw.flatMap((node, i) => typeof node !== "string" && isTag(node[0]) && attributes.every(one => hasAttribute(node, ...one)) ? [i] : []);
}
/** The elements that hold a text, and in which no element holds the whole of it. */
function elementsAround(text) {
  const holds = node => folded(textOf(node)).includes(text);
  const isRead = (node, i) => doc.kind[i] === INLINE || TEXTUAL.has(node[0]) || node.some((child, k) => k > 2 && typeof child === "string");
  return doc.raw.flatMap((node, i) => typeof node !== "string" && isRead(node, i) && holds(node) &&
    !node.some((child, k) => k > 2 && typeof child !== "string" && holds(child)) ? [i] : []);
}
/** The lines from one to another that hold a text. */
function linesWith(text, from, to) {
  const found = [];
  for (let line = from; line <= to; line++) if (folded(doc.lines[line - 1]).includes(text)) found.push(line);
  return found;
}
/** Where the number after another is in a list that rises, or the one before it; it begins anew at the end. */
function neighbour(list, here, step) {
  const over = firstOver(list, here), at = step > 0 ? over : over - 1 - (list[over - 1] === here);
  return (at + list.length) % list.length;
}
/** Goes to the next element that is asked for, or the one before. A text that no element holds, such as markup, is found in the lines. */
function find(step) {
  const given = $("wanted").value.trim(), wanted = asked(given);
  if (!given) return;
  const elements = wanted.attributes ? elementsWith(wanted) : [], nodes = elements.length ? elements : elementsAround(wanted.text);
  const list = nodes.length ? nodes : linesWith(wanted.text, 1, doc.lines.length);
  if (!list.length) return say(`There is nothing like ${given}.`);
  const k = neighbour(list, nodes.length ? tree.active : source.active + 1, step), count = `(${k + 1} of ${list.length})`;
  if (!nodes.length) {
    goToLine(list[k], true, false);
    return say(`line ${list[k]} ${count}`);
  }
  goToNode(list[k]);
  const at = elements.length ? null : linesOf(list[k]), [line] = at ? linesWith(wanted.text, at.from, at.most) : [];
  if (line) source.choose(line - 1);
  say(`${told(list[k])} ${count}`);
}
