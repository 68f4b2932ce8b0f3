/** Rows of which only those near the view are made. Each has an id, which rises from row to row, and by which its height is kept. */
class List {
  constructor(pane, rows) {
    Object.assign(this, rows, {pane, ids: [], y: 0, put: 0, active: 0, first: 0, end: 0, drawn: []});
    [this.sheet] = pane.children;
    [this.body] = this.sheet.children;
    pane.addEventListener("scroll", () => this.scrolled());
    pane.addEventListener("focus", () => this.held || this.focus());
    new ResizeObserver(() => this.resized()).observe(pane);
  }
  /** Where a row, or the first one in view, is. */
  spot(id = this.ids[this.at(this.y)]) { return {id, offset: this.y - this.top[this.rowOf(id)]}; }
  /** Shows other rows, one of them at its spot. */
  fill(ids, spot) {
    this.ids = ids;
    this.top = new Float64Array(ids.length + 1);
    this.measure(0);
    this.place(spot ? this.top[Math.max(0, this.rowOf(spot.id))] + spot.offset || 0 : 0);
    this.draw(true);
  }
  /** No height is known any more. */
  forget(count) {
    this.unit = parseFloat(getComputedStyle(this.pane).lineHeight);
    this.high = new Float32Array(count).fill(this.unit);
    this.width = this.pane.clientWidth;
  }
  resized() {
    if (this.pane.clientWidth === this.width) this.draw(); else this.renew();
  }
  /** Makes all rows anew, whatever their heights were. */
  renew() {
    const spot = this.spot();
    this.forget(this.high.length);
    this.fill(this.ids, spot);
  }
  /** Adds up the heights, from a row on. Where a page can't be as high as they are, the scroll bar is coarser than the wheel. */
  measure(from) {
    for (let row = from; row < this.ids.length; row++) this.top[row + 1] = this.top[row] + this.high[this.ids[row]];
    this.height = this.top[this.ids.length];
    this.sheet.style.height = `${Math.min(this.height, MOST_PIXELS)}px`;
    const view = this.pane.clientHeight;
    this.scale = Math.max(1, (this.height - view) / (MOST_PIXELS - view));
    this.pane.onwheel = this.scale === 1 ? null : event => {
      if (event.ctrlKey || event.shiftKey) return;
      event.preventDefault();
      this.place(this.y + event.deltaY * (event.deltaMode ? this.unit : 1));
      this.draw();
    };
  }
  rowOf(id) {
    const row = firstOver(this.ids, id) - 1;
    return this.ids[row] === id ? row : -1;
  }
  at(y) { return Math.max(0, Math.min(firstOver(this.top, y), this.ids.length) - 1); }
  place(y) {
    this.y = Math.max(0, Math.min(y, this.height - this.pane.clientHeight));
    this.pane.scrollTop = this.y / this.scale;
    this.put = this.pane.scrollTop;
  }
  scrolled() {
    if (this.pane.scrollTop !== this.put) this.y = (this.put = this.pane.scrollTop) * this.scale;
    this.draw();
  }
  draw(fresh) {
    if (printing) return;
    const view = this.pane.clientHeight, from = this.at(this.y), to = Math.min(this.at(this.y + view) + 1, this.ids.length);
    if (fresh || from < this.first || to > this.end) {
      const still = fresh || this.first >= to || this.end <= from ? from : Math.max(from, this.first); // in view, and measured if one is
      this.build(this.at(this.y - view / 2), Math.min(this.at(this.y + 1.5 * view) + 1, this.ids.length));
      this.fit(still);
    }
    this.body.style.transform = `translateY(${this.pane.scrollTop + this.top[this.first] - this.y}px)`;
  }
  /** Makes rows, each in a group for each of its levels. */
  build(first, end) {
    const focused = this.pane.contains(document.activeElement), all = document.createDocumentFragment(), drawn = [];
    let spot = all, depth = 0;
    for (let row = first; row < end; row++) {
      for (const level = this.level(this.ids[row]); depth !== level;) {
        if (depth > level) { spot = spot.parentNode; depth--; continue; }
        spot = spot.appendChild(make("div", `group${depth > 60 ? " deep deepest" : depth > 20 ? " deep" : ""}`, "", {role: "group"}));
        depth++;
      }
      drawn.push(spot.appendChild(Object.assign(this.make(this.ids[row]), {id: `${this.pane.id}-${this.ids[row]}`, row})));
    }
    if (!drawn.length) all.append(make("p", "empty", "There is no tree, since the text was refused."));
    this.body.replaceChildren(all);
    Object.assign(this, {first, end, drawn});
    this.paint();
    if (focused) this.hold();
  }
  /** Takes the heights of the rows that are drawn; one row stays where it is. All are measured before the page changes. */
  fit(still) {
    const offset = this.y - this.top[still], highs = this.drawn.map(element => element.getBoundingClientRect().height);
    for (const row of this.drawn.filter(this.isCut)) row.append(more("more"));
    const other = highs.findIndex((high, k) => Math.abs(high - this.high[this.ids[this.first + k]]) > .05);
    if (other < 0) return;
    highs.forEach((high, k) => { this.high[this.ids[this.first + k]] = high; });
    this.measure(this.first + other);
    this.place(this.top[still] + offset);
  }
  /** The element of the active row, if it is drawn. */
  element() { return this.drawn[this.rowOf(this.active) - this.first]; }
  paint() {
    const active = this.element();
    this.pane.tabIndex = active ? -1 : 0;
    for (const element of this.drawn) {
      element.tabIndex = element === active ? 0 : -1;
      this.mark(element, this.ids[element.row]);
    }
  }
  /** Brings a row into view. */
  reveal(id) {
    const row = this.rowOf(id), view = this.pane.clientHeight, edge = Math.min(2 * this.unit, view / 4);
    for (let tries = 0; row >= 0 && tries < 4; tries++) { // what comes into view may turn out higher than it was taken to be
      const top = this.top[row], bottom = this.top[row + 1], far = Math.max(this.y - bottom, top - this.y - view) > view / 3;
      if (top >= this.y && (bottom <= this.y + view || bottom - top > view)) break;
      this.place(far ? top - view / 3 : top < this.y || bottom - top > view - edge ? top - edge : bottom + edge - view);
      this.draw();
    }
  }
  choose(id, withFocus) {
    this.active = id;
    this.reveal(id);
    this.paint();
    if (withFocus) this.focus();
  }
  /** The focus comes to the active row, which comes into view. */
  focus() {
    this.reveal(this.active);
    this.pane.scrollIntoView({block: "nearest"});
    this.hold();
  }
  /** The focus comes to the active row if it is drawn, else to the pane. */
  hold() {
    this.held = true;
    (this.element() ?? this.pane).focus({preventScroll: true});
    this.held = false;
  }
  /** The id that an arrow, page or end key leads to. */
  moved(key) {
    const row = this.rowOf(this.active), end = this.ids.length - 1, page = Math.max(1, Math.floor(this.pane.clientHeight / this.unit) - 1);
    const to = {ArrowDown: row + 1, ArrowUp: row - 1, PageDown: row + page, PageUp: row - page, Home: 0, End: end}[key];
    return to === undefined ? undefined : this.ids[Math.max(0, Math.min(to, end))];
  }
  /** Keys and clicks; `go` leads to a row. */
  listen(own, go) {
    this.pane.addEventListener("keydown", event => {
      if (event.ctrlKey || event.altKey || event.metaKey || !this.ids.length) return;
      const to = this.moved(event.key), act = own[event.key];
      if (to !== undefined) go(to, false); else if (act) act(this.active); else return;
      event.preventDefault();
    });
    this.pane.addEventListener("click", event => {
      const id = this.idAt(event);
      if (id === undefined || !getSelection().isCollapsed) return; // a text that was marked to be copied
      own[event.target.className]?.(id);
      go(id, true);
    });
  }
  idAt(event) { return this.ids[event.target.closest(".row")?.row]; }
}

