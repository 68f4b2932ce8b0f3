const source = new List($("source"), {
  level: () => 0,
  make(id) {
    const line = id + 1, text = doc.lines[id], short = doc.wholeLines.has(id) ? text : text.slice(0, SHORT_LINE);
    const notes = (doc.notes.get(line) ?? []).filter(isShown);
    const said = [`line ${line}: ${short || "empty"}`, ...notes.map(note => `${note.type}: ${note.text}`)].join(". ");
    const row = make("div", "row", "", {role: "option", "aria-posinset": line, "aria-setsize": doc.lines.length, "aria-label": visible(said)});
    row.append(make("span", "number", line), make("span", "code", short));
    if (short !== text) row.lastChild.append(more(`… ${(text.length - short.length).toLocaleString("en")} more characters`));
    for (const note of notes) {
      const element = row.appendChild(make("div", `note ${note.type}`));
      element.append(make("b", "", note.type), ` ${visible(note.text)}`);
      element.note = note;
    }
    return row;
  },
  isCut: () => false,
  mark(element, id) {
    const isIn = (from, to) => marked !== null && id + 1 >= from && id + 1 <= to, sure = isIn(marked?.from, marked?.sure);
    element.classList.toggle("sure", sure);
    element.classList.toggle("maybe", !sure && isIn(marked?.from, marked?.most));
    element.setAttribute("aria-selected", sure);
    for (const note of element.querySelectorAll(".note")) note.classList.toggle("current", current === note.note);
  },
});

const tree = new List($("tree"), {
  level: id => doc.depth[id],
  make(id) {
    const node = doc.raw[id], tag = typeof node === "string" ? null : node[0], isNote = tag === "system_message";
    const whole = doc.whole[id], [numbers, place] = numbersOf(id), said = [], parts = [], isQuiet = isNote && !isShown(messageOf(id));
    const add = (className, text) => {
      if (!text) return;
      const short = whole || text.length <= SHORT ? text : `${text.slice(0, SHORT)}…`;
      said.push(short);
      parts.push(make("span", className, whole ? short : short.replace(/\n/g, "↵")));
    };
    const text = tag === null ? node : alone(node), attributes = tag === null ? "" : attributesOf(node);
    add("tag", tag);
    if (isNote) add("level", node[2].type); else add("attributes", attributes);
    if (text !== null) add(`text${tag === "problematic" ? " problem" : ""}`, text);
    else if (doc.shut[id]) add("preview", textIn(isNote ? node[3] ?? "" : node, 2 * SHORT));
    if (isNote) add("attributes", attributes);
    const row = make("div", `row${whole ? " whole" : ""}${isNote ? ` said ${node[2].type}` : ""}${isQuiet ? " quiet" : ""}`, "", {
      role: "treeitem", "aria-level": doc.depth[id] + 1, "aria-posinset": doc.place[id],
      "aria-setsize": id ? doc.raw[doc.parent[id]].length - 3 : 1, "aria-label": visible([...said, place].filter(Boolean).join(", ")),
    });
    if (isParent(id)) row.setAttribute("aria-expanded", !doc.shut[id]);
    row.append(make("span", "number", numbers), make("span", "twist", !isParent(id) ? "" : doc.shut[id] ? "▸" : "▾"));
    row.append(...parts.flatMap(part => [" ", part])); // rows of more than one line break there
    if (whole) row.append(" ", more("less"));
    return row;
  },
  isCut(row) {
    if (doc.whole[tree.ids[row.row]]) return false;
    const parts = [...row.querySelectorAll(".text, .preview, .attributes")];
    return parts.some(part => part.textContent.endsWith("…") || part.scrollWidth > part.clientWidth);
  },
  mark(element, id) {
    element.setAttribute("aria-selected", id === tree.active);
    element.classList.toggle("near", id === near);
  },
});

const isParent = id => doc.next[id] > id + 1;
/** The nodes that no collapsed element hides. */
function shown() {
  const ids = [];
  for (let i = 0; i < doc.raw.length; i = doc.shut[i] ? doc.next[i] : i + 1) ids.push(i);
  return ids;
}
/** The node, or the outermost collapsed element that hides it. */
function seen(id) {
  let found = id;
  for (let i = doc.parent[id]; i >= 0; i = doc.parent[i]) if (doc.shut[i]) found = i;
  return found;
}
function setShut(id, shut) {
  doc.shut[id] = shut;
  tree.fill(shown(), tree.spot(id));
}
/** Marks the lines of a node. Those of the whole document aren't. */
function point(id) {
  marked = id > 0 ? linesOf(id) : null;
  source.paint();
}
/** A node becomes the active one; its lines are marked and shown. */
function goToNode(id, withFocus) {
  if (seen(id) !== id) {
    for (let i = doc.parent[id]; i >= 0; i = doc.parent[i]) doc.shut[i] = 0;
    tree.fill(shown(), tree.spot());
  }
  current = messageOf(id);
  tree.choose(id, withFocus);
  point(id);
  if (marked) {
    source.active = marked.from - 1;
    source.reveal(Math.min(marked.most, marked.from + 5) - 1);
    source.choose(marked.from - 1);
  }
  $("where").textContent = told(id);
}
/** A line becomes the active one, and its element too. */
function goToLine(line, unfolds, withFocus = true) {
  if (tree.ids.length) goToNode(unfolds ? doc.owner[line] : seen(doc.owner[line]));
  source.choose(line - 1, withFocus);
}
function goToMessage(step) {
  const list = doc.messages.filter(isShown), line = source.active + 1, focused = document.activeElement;
  if (!list.length) return;
  let at = list.indexOf(current);
  if (at >= 0) at += step;
  else at = step > 0 ? Math.max(0, list.findIndex(m => m.at >= line)) : list.findLastIndex(m => m.at <= line);
  at = (at + list.length) % list.length;
  const message = list[at];
  if (message.node >= 0) goToNode(message.node, $("tree").contains(focused));
  current = message;
  source.choose(message.at - 1, focused === document.body || $("source").contains(focused));
  say(`${message.type}, line ${message.line}: ${message.text} (${at + 1} of ${list.length})`);
}
function say(text) { $("said").textContent = $("where").textContent = visible(text); }
/** Writes how many messages of each level there are on its button, which is pressed while they are shown. */
function tally() {
  for (const type of LEVELS) {
    const count = doc.messages.filter(m => m.type === type).length;
    $(type).textContent = `${count} ${type}`;
    $(type).hidden = !count;
    $(type).setAttribute("aria-pressed", !hidden.has(type));
  }
  $("none").hidden = doc.messages.length;
  $("previous").disabled = $("following").disabled = !doc.messages.some(isShown);
}
/** Hides the messages of a level, or shows them again. */
function toggle(type) {
  if ($(type).hidden) return;
  hidden.delete(type) || hidden.add(type);
  tally();
  for (const list of [source, tree]) list.renew();
  say(`${$(type).textContent}: ${hidden.has(type) ? "hidden" : "shown"}`);
}
/** Copies the path of the active node. */
async function copyPath() {
  if (!doc.raw.length) return;
  const path = pathOf(tree.active);
  try {
    await navigator.clipboard.writeText(path);
    say(`copied: ${path}`);
  } catch {
    say(`not copied, since the browser refused it: ${path}`);
  }
}

/** Shows a text that was read, at first or anew: then the reader stays where he was, and what was collapsed stays so. */
function show(data) {
  const old = doc, spot = old && source.spot();
  if (tree.ids.length) last = {doc: old, active: tree.active, ...tree.spot()};
  doc = read(data);
  document.title = `${visible(data.name)} · rst-view`;
  $("name").textContent = visible(data.name);
  $("source").style.tabSize = data.tab_width;
  document.documentElement.style.setProperty("--digits", Math.max(2, String(doc.lines.length).length));
  tally();
  $("names").replaceChildren(...[...doc.names].sort().map(value => make("option", "", "", {value: `<${value}>`})));
  tell();
  marked = null;
  source.forget(doc.lines.length);
  tree.forget(doc.raw.length);
  const line = n => shifted(old.lines, doc.lines, n), to = last && doc.raw.length ? carried(last.doc, doc) : [];
  const node = i => { while (i > 0 && to[i] < 0) i = last.doc.parent[i]; return to[i]; };
  source.active = old ? line(source.active) : 0;
  source.fill([...doc.lines.keys()], old && {id: line(spot.id), offset: spot.offset});
  to.forEach((now, was) => { if (now >= 0) { doc.shut[now] = last.doc.shut[was]; doc.whole[now] = last.doc.whole[was]; } });
  tree.active = to.length ? node(last.active) : 0;
  tree.fill(shown(), to.length && {id: seen(node(last.id)), offset: last.offset});
  current = messageOf(tree.active);
  if (!doc.raw.length) return;
  point(tree.active);
  $("where").textContent = told(tree.active);
}
/** Says above the page that the text was refused, or that nobody answers. */
function tell() {
  const text = lost ? LOST : doc.data.refused?.text ?? "";
  $("refused").textContent = visible(text);
  $("refused").hidden = !text;
}
/** The place that a line has now, where one stretch of lines was changed. */
function shifted(old, now, place) {
  const both = Math.min(old.length, now.length);
  let head = 0, tail = 0;
  while (head < both && old[head] === now[head]) head++;
  while (tail < both - head && old[old.length - 1 - tail] === now[now.length - 1 - tail]) tail++;
  if (place < head) return place;
  return place >= old.length - tail ? place + now.length - old.length : Math.min(place, Math.max(now.length - tail - 1, 0));
}
/** For each old node the new one that it is taken to have become, or -1: children are paired from the front and from the back while they are
    equal, then those between by their order while their names are equal. */
function carried(old, now) {
  const to = new Int32Array(old.raw.length).fill(-1);
  const children = (t, i) => {
    const list = [];
    for (let k = i + 1; k < t.next[i]; k = t.next[k]) list.push(k);
    return list;
  };
  const equal = (a, b) => typeof a === "string" || typeof b === "string" ? a === b : a[0] === b[0] && a.length === b.length &&
    (a[0] === "system_message" || JSON.stringify(a[2]) === JSON.stringify(b[2])) && a.every((child, k) => k < 3 || equal(child, b[k]));
  const same = (i, k) => {
    if (!equal(old.raw[i], now.raw[k])) return false;
    for (let n = old.next[i] - i; n--;) to[i + n] = k + n;
    return true;
  };
  const pair = (i, k) => {
    to[i] = k;
    const olds = children(old, i), nows = children(now, k), both = Math.min(olds.length, nows.length);
    let head = 0, tail = 0;
    while (head < both && same(olds[head], nows[head])) head++;
    while (tail < both - head && same(olds[olds.length - 1 - tail], nows[nows.length - 1 - tail])) tail++;
    for (let n = head; n < both - tail; n++) if (old.raw[olds[n]][0] === now.raw[nows[n]][0]) pair(olds[n], nows[n]);
  };
  pair(0, 0);
  return to;
}
/** Asks for the next state of a file that is watched, again and again. */
async function watch(have) {
  for (;;) {
    const data = await fetch(`data?have=${have}`).then(answer => answer.ok ? answer.json() : null).catch(() => null);
    lost = data === null;
    tell();
    if (lost) await new Promise(done => setTimeout(done, 2000));
    else if (data.version !== have) show(data);
    have = data?.version ?? have;
  }
}

const keys = {
  n() { goToMessage(1); },
  p() { goToMessage(-1); },
  c: copyPath,
  "/"() { $("wanted").focus(); $("wanted").select(); },
  "?"() { $("help").open = !$("help").open; },
};
LEVELS.forEach((type, k) => { keys[k + 1] = () => toggle(type); });
const ofTree = {
  ArrowRight(id) { if (doc.shut[id] && isParent(id)) setShut(id, 0); else if (isParent(id)) goToNode(id + 1, true); },
  ArrowLeft(id) { if (isParent(id) && !doc.shut[id]) setShut(id, 1); else if (id) goToNode(doc.parent[id], true); },
  Enter(id) { goToNode(id); source.focus(); },
  " "(id) { doc.whole[id] ^= 1; tree.draw(true); },
  more(id) { ofTree[" "](id); },
  twist(id) { if (isParent(id)) setShut(id, doc.shut[id] ^ 1); },
};
const ofSource = {
  Enter(id) { goToLine(id + 1, true); if (tree.ids.length) tree.focus(); },
  " "(id) { doc.wholeLines.delete(id) || doc.wholeLines.add(id); source.draw(true); },
  more(id) { ofSource[" "](id); },
};
tree.listen(ofTree, id => goToNode(id, true));
source.listen(ofSource, (id, unfolds) => goToLine(id + 1, unfolds));
$("tree").addEventListener("pointerover", event => point(tree.idAt(event) ?? tree.active));
$("tree").addEventListener("pointerleave", () => point(tree.active));
const comeNear = id => { near = id; tree.paint(); };
$("source").addEventListener("pointerover", event => comeNear(tree.ids.length ? seen(doc.owner[(source.idAt(event) ?? -1) + 1]) : -1));
$("source").addEventListener("pointerleave", () => comeNear(-1));
$("previous").addEventListener("click", () => goToMessage(-1));
$("following").addEventListener("click", () => goToMessage(1));
$("copy").addEventListener("click", copyPath);
for (const type of LEVELS) $(type).addEventListener("click", () => toggle(type));
addEventListener("keydown", event => {
  const act = keys[event.key];
  if (!act || event.ctrlKey || event.altKey || event.metaKey || event.target === $("wanted")) return;
  event.preventDefault();
  act();
});
$("search").addEventListener("submit", event => { event.preventDefault(); find(1); });
$("wanted").addEventListener("keydown", event => {
  if (event.key === "Enter" && event.shiftKey) { event.preventDefault(); find(-1); }
  if (event.key === "Escape") tree.focus();
});
for (const [id, shut] of [["shut", 1], ["open", 0]]) {
  $(id).addEventListener("click", () => {
    doc.shut.fill(shut, 1);
    tree.fill(shown());
    tree.choose(seen(tree.active));
  });
}
addEventListener("beforeprint", () => {
  printing = true;
  for (const list of [source, tree]) {
    list.build(0, Math.min(list.ids.length, MOST_PRINTED));
    if (list.ids.length > MOST_PRINTED) list.body.append(make("p", "empty", `${list.ids.length - MOST_PRINTED} more rows aren't printed.`));
  }
});
addEventListener("afterprint", () => {
  printing = false;
  for (const list of [source, tree]) list.draw(true);
});

const given = JSON.parse($("data").textContent);
$("data").remove();
show(given);
if (given.version) watch(given.version);
