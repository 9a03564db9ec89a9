// Tables that grow, and the tokens of a text, line by line.

/** A table of numbers that grows as it is filled. */
export class Table {
  /** @param {typeof Float64Array | typeof Uint32Array} Kind */
  constructor(Kind, room = 1024) {
    this.list = new Kind(room);
    this.size = 0;
  }

  push(x) {
    if (this.size === this.list.length) {
      const more = new this.list.constructor(2 * this.size);
      more.set(this.list);
      this.list = more;
    }
    this.list[this.size++] = x;
  }

  /** What was pushed, in a table of just that size. */
  done() {
    return this.list.slice(0, this.size);
  }
}

/** Faces one behind the other: the corners of face f are those from starts[f] to starts[f + 1]. */
export class Faces {
  constructor() {
    this.starts = new Table(Uint32Array);
    this.corners = new Table(Uint32Array);
    this.starts.push(0);
  }

  /** Ends a face, whose corners were pushed. */
  end() {
    this.starts.push(this.corners.size);
  }

  add(list) {
    for (const corner of list) this.corners.push(corner);
    this.end();
  }

  done() {
    return { starts: this.starts.done(), corners: this.corners.done() };
  }
}

export const latin = new TextDecoder('latin1');

export const LF = 10, HASH = 35;
const CR = 13, TAB = 9, SPACE = 32, PLUS = 43, MINUS = 45, DOT = 46, ZERO = 48;

const isBlank = (c) => c === SPACE || c === TAB || c === CR;

/** The tokens of a text by lines, without what stands behind # on a line, and without lines that have no token. */
export class Lines {
  constructor(data) {
    this.data = data;
    this.at = 0;
    this.from = [];
    this.to = [];
    this.count = 0;
  }

  /** Goes to the next line with tokens; false where there is none. */
  next() {
    while (this.at < this.data.length) {
      this.readLine();
      if (this.count) return true;
    }
    return false;
  }

  readLine() {
    const data = this.data, size = data.length;
    let at = this.at, open = -1;
    this.count = 0;
    for (; at < size && data[at] !== LF && data[at] !== HASH; at++) {
      if (!isBlank(data[at])) {
        if (open < 0) open = at;
      } else if (open >= 0) {
        this.token(open, at);
        open = -1;
      }
    }
    if (open >= 0) this.token(open, at);
    if (data[at] === HASH) at = data.indexOf(LF, at);
    this.at = at < 0 || at >= size ? size : at + 1;
  }

  token(from, to) {
    this.from[this.count] = from;
    this.to[this.count++] = to;
  }

  word(k) {
    return k < this.count ? latin.decode(this.data.subarray(this.from[k], this.to[k])) : '';
  }

  /** Token k as a number. Short decimals are read here, since they are most of a mesh; all else is read by Number. */
  number(k) {
    if (k >= this.count) return NaN;
    const { data } = this, to = this.to[k];
    let at = this.from[k], value = 0, decimals = -1;
    const negative = data[at] === MINUS;
    if (negative || data[at] === PLUS) at++;
    if (at === to || to - at > 16) return Number(this.word(k));
    for (; at < to; at++) {
      const digit = data[at] - ZERO;
      if (digit >= 0 && digit <= 9) {
        value = value * 10 + digit;
        if (decimals >= 0) decimals++;
      } else if (data[at] === DOT && decimals < 0) decimals = 0;
      else return Number(this.word(k));
    }
    const size = decimals > 0 ? value / 10 ** decimals : value;
    return negative ? -size : size;
  }

  /** The whole number at the front of token k, as in the corners `7/1/3` of an OBJ; NaN where there is none. */
  front(k) {
    const { data } = this, negative = data[this.from[k]] === MINUS;
    let at = this.from[k] + (negative ? 1 : 0), value = 0;
    const first = at;
    for (; at < this.to[k] && data[at] >= ZERO && data[at] <= ZERO + 9; at++) value = value * 10 + data[at] - ZERO;
    if (at === first) return NaN;
    return negative ? -value : value;
  }
}
