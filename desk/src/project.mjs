/**
 * The queries and fragments of all files, and which of them belong together.
 *
 * A spread means the fragment of that name in its own file. If there is none, it means the only fragment of that name in all other files.
 * A unit is what is checked together: one operation with all fragments it reaches, in whatever files they stand. A service stores the same.
 */
import { Kind, Source, parse } from './graphql.mjs';
import { definitionName } from './names.mjs';

/**
 * @typedef {object} Unit
 * @property {string} name
 * @property {string} file
 * @property {object[]} operations  one, or none for the fragments of a file that no operation reaches
 * @property {object[]} fragments  in the order of the files
 * @property {Set<object>} members  all of these definitions
 * @property {object[]} elsewhere  members that are checked in another unit; only where there is no operation
 */

const parsedTexts = new WeakMap(); // a text that did not change is parsed once

export class Project {
  /** @param {import('./text.mjs').Text[]} texts */
  constructor(texts) {
    this.texts = new Map(texts.map((text) => [text.file, text]));
    this.syntaxErrors = [];
    this.documents = new Map(); // by file
    this.fragmentsByName = new Map();
    this.order = new Map(); // each definition, and its place in the order of the files
    this.spreadsOf = new Map();
    for (const text of texts) this.take(text);
  }

  take(text) {
    const { document, error } = parsed(text);
    if (error) this.syntaxErrors.push(error);
    if (!document) return;
    this.documents.set(text.file, document);
    for (const node of document.definitions) {
      this.order.set(node, this.order.size);
      if (node.kind !== Kind.FRAGMENT_DEFINITION) continue;
      const known = this.fragmentsByName.get(node.name.value);
      if (known) known.push(node);
      else this.fragmentsByName.set(node.name.value, [node]);
    }
  }

  definitions(kind) {
    return [...this.order.keys()].filter((node) => node.kind === kind);
  }

  operationsIn(file) {
    return this.documents.get(file)?.definitions.filter(({ kind }) => kind === Kind.OPERATION_DEFINITION) ?? [];
  }

  /** The fragments that a spread can mean. One is right; none or several are a mistake. */
  candidates(spread) {
    const all = this.fragmentsByName.get(spread.name.value) ?? [];
    const own = all.filter((node) => node.loc.source === spread.loc.source);
    return own.length ? own : all;
  }

  target = (spread) => {
    const [one, ...more] = this.candidates(spread);
    return more.length ? undefined : one;
  };

  /** All spreads in a definition, at any depth. */
  spreads(definition) {
    if (!this.spreadsOf.has(definition)) this.spreadsOf.set(definition, spreadsIn(definition.selectionSet, []));
    return this.spreadsOf.get(definition);
  }

  /** @returns {Set<object>} a definition and the fragments it reaches, `without` following some spreads */
  reach(definition, without = new Set()) {
    const reached = new Set();
    const waiting = [definition];
    while (waiting.length) {
      const node = waiting.pop();
      if (!node || reached.has(node)) continue;
      reached.add(node);
      for (const spread of this.spreads(node)) if (!without.has(spread)) waiting.push(this.target(spread));
    }
    return reached;
  }

  /** @returns {Unit[]} one for each operation; then one for each file with fragments that no operation reaches */
  units() {
    const left = new Set(this.definitions(Kind.FRAGMENT_DEFINITION));
    const units = this.definitions(Kind.OPERATION_DEFINITION).map((operation) => {
      const members = this.reach(operation);
      for (const member of members) left.delete(member);
      return { name: definitionName(operation), file: operation.loc.source.name, operations: [operation],
        fragments: this.fragmentsOf(members), members, elsewhere: [] };
    });
    const byFile = new Map();
    for (const node of left) byFile.set(node.loc.source.name, [...(byFile.get(node.loc.source.name) ?? []), node]);
    return [...units, ...[...byFile].map(([file, own]) => this.unusedUnit(file, new Set(own)))];
  }

  /** The fragments of a file that no operation reaches, with what they reach. */
  unusedUnit(file, own) {
    const members = new Set([...own].flatMap((node) => [...this.reach(node)]));
    return { name: `unused fragments of ${file}`, file, operations: [], fragments: this.fragmentsOf(members), members,
      elsewhere: [...members].filter((node) => !own.has(node)) };
  }

  fragmentsOf(members) {
    const fragments = [...members].filter(({ kind }) => kind === Kind.FRAGMENT_DEFINITION);
    return fragments.sort((x, y) => this.order.get(x) - this.order.get(y));
  }

  text(span) {
    return this.texts.get(span.file);
  }

  /** `file:line:column` */
  where(span) {
    const { line, column } = this.text(span).position(span.start);
    return `${span.file}:${line}:${column}`;
  }
}

/** The operations and fragments of a text, or why it cannot be parsed. A text without any definition has neither. */
function parsed(text) {
  if (!parsedTexts.has(text)) parsedTexts.set(text, parseText(text));
  return parsedTexts.get(text);
}

const EXECUTABLE = [Kind.OPERATION_DEFINITION, Kind.FRAGMENT_DEFINITION];

function parseText(text) {
  const source = new Source(text.body, text.file);
  try {
    const document = parse(source);
    return { document: { ...document, definitions: document.definitions.filter(({ kind }) => EXECUTABLE.includes(kind)) } };
  } catch (error) {
    if (!text.body.replace(/#.*/g, '').replace(/[\s,\ufeff]/g, '')) return {};
    if (error instanceof RangeError) return { error: { message: 'The text is nested too deep to be read.', source, positions: [0] } };
    if (error.name !== 'GraphQLError') throw error;
    return { error };
  }
}

function spreadsIn(set, out) {
  for (const node of set.selections) {
    if (node.kind === Kind.FRAGMENT_SPREAD) out.push(node);
    else if (node.selectionSet) spreadsIn(node.selectionSet, out);
  }
  return out;
}
