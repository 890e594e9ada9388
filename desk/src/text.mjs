/** The text of a file: lines, columns and spans. Columns count UTF-16 units from 1, as editors count them. */

/** @typedef {{file: string, start: number, end: number}} Span  offsets; the end is one past the last character */
/** @typedef {{line: number, column: number}} Position  both count from 1 */

export class Text {
  constructor(file, body) {
    this.file = file;
    this.body = body;
  }

  /** The offset at which each line starts. */
  get starts() {
    if (!this.known) {
      this.known = [0];
      for (const { index, 0: end } of this.body.matchAll(/\r\n|\n|\r/g)) this.known.push(index + end.length);
    }
    return this.known;
  }

  /** @returns {Position} */
  position(offset) {
    let low = 0;
    let high = this.starts.length - 1;
    while (low < high) {
      const middle = (low + high + 1) >> 1;
      if (this.starts[middle] <= offset) low = middle;
      else high = middle - 1;
    }
    return { line: low + 1, column: offset - this.starts[low] + 1 };
  }

  /** One line without its line end. */
  line(number) {
    return this.body.slice(this.starts[number - 1], this.starts[number] ?? this.body.length).replace(/[\r\n]+$/, '');
  }

  slice({ start, end }) {
    return this.body.slice(start, end);
  }
}

/** @returns {Span} the whole node */
export function spanOf(node) {
  return { file: node.loc.source.name, start: node.loc.start, end: node.loc.end };
}

/** A field without the selections in its braces. */
export function headSpan(field) {
  const span = spanOf(field);
  if (!field.selectionSet) return span;
  const head = field.loc.source.body.slice(span.start, field.selectionSet.loc.start);
  return { ...span, end: span.start + head.trimEnd().length };
}

/** The head of a definition, as `query Primer` or `fragment Tone on Glyph`. */
export function definitionSpan(node) {
  const span = spanOf(node);
  const last = node.typeCondition ?? node.name;
  return { ...span, end: last ? last.loc.end : node.selectionSet.loc.start + 1 };
}
