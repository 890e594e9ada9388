/** A query for each kind of answer, and for each thing that stands in the way of an image; what the desk says of them is in messages/. */
import { SCHEMA } from '../tests/support/checked.mjs';

const many = (n, text) => Array.from({ length: n }, (_, i) => text(i)).join(' ');
const chain = (n) => `{ font(id: 1) { ...F0 } }\n${many(n, (i) => `fragment F${i} on Font { name ${i + 1 < n ? `...F${i + 1}` : ''} }`)}`;
const nested = (n) => `query Deep { font(id: 1) ${'{ main { base '.repeat(n)}{ name } ${'} }'.repeat(n)} }`;

/** An engine that lends too little scratch. */
const lendingLittle = (engine) => ({ ask: (image, budget) => engine.ask(image, budget, 8) });

/**
 * The kind (or the rule), the text or the texts by file, and what else the check is given. `wrap` stands between check and program.
 */
export const CASES = [
  { kind: 0, files: 'query Primer { font(id: 1) { name } }' },
  { kind: 1, files: `query Many { font(id: 1) {\n${many(513, (i) => `...F${i}`)} } }\n${many(513, (i) => `fragment F${i} on Font { name }`)}` },
  { kind: 2, files: 'query Primer { font(id: 1) { name } }', budget: 1_000_001 },
  { kind: 3, files: 'query Primer { font(id: 1) { name } }', wrap: lendingLittle },
  { kind: 4, files: `query Wide {\n  wide(${many(65, (i) => `a${i}: 1`)})\n}`,
    schema: `${SCHEMA} extend type Query { wide(${many(65, (i) => `a${i}: Int`)}): Int }` },
  { kind: 5, files: `query Loop {\n  font(id: 1) { ...Mark }\n}\nfragment Mark on Font {\n  name\n  main { ...Tone }\n}\nfragment Tone on Glyph {\n  code\n  base { size ...Mark }\n}` },
  { kind: 6, files: chain(101) },
  { kind: 7, files: `query Deep { ${'... { '.repeat(501)} __typename ${'}'.repeat(501)} }` },
  { kind: 8, files: nested(65) },
  { kind: 9, files: { 'q.graphql': 'query Primer {\n  font(id: 1) { name }\n}', 'old.graphql': 'fragment Old on Font {\n  nick\n  ...Older\n}\nfragment Older on Font { size }' } },
  { kind: 10, files: 'query Primer($font: Font) {\n  font(id: $font) { name }\n}' },
  { kind: 11, files: 'query Primer($side: Side, $side: Side) {\n  font(id: 1) { anchor(side: $side) { x } }\n}' },
  { kind: 12, files: 'query Primer($side: Side, $id: ID!) {\n  font(id: $id) { anchor(side: BELOW) { x } }\n}' },
  { kind: 13, files: 'query Primer($id: ID) {\n  font(id: $id) { name }\n}' },
  { kind: 14, files: 'query Primer {\n  thing {\n    ... on Font { v: size }\n    ... on Glyph { v: code }\n  }\n}' },
  { kind: 15, files: 'query Primer {\n  font(id: 1) { main { v: name } ...Nick }\n}\nfragment Nick on Font {\n  main { v: nick }\n}' },
  { kind: 16, files: {
    'primer.graphql': 'query Primer {\n  font(id: 1) {\n    pos: anchor(side: BELOW, label: "ẹ") { x }\n    ...Mark\n  }\n}',
    'mark.graphql': 'fragment Mark on Font {\n  name\n  ...Tone\n}',
    'tone.graphql': 'fragment Tone on Font {\n  pos: anchor(side: ABOVE, label: "e\u0323") { y }\n}' } },
  { kind: 17, files: 'query Primer {\n  font(id: 1) { name }\n}', budget: 2 },
  { kind: 18, files: `query Large {\n  font(id: 1) {\n${many(1000, (i) => `    n${i}: name\n`)}  }\n}`, budget: 5000 },
  { kind: 'syntax', files: { 'bad.graphql': 'query Primer {\n  font(id: 1 { name }\n}', 'good.graphql': 'query Good { font(id: 1) { name } }' } },
  { kind: 'schema', files: 'query Primer {\n  font(id: 1) { nmae }\n}' },
  { kind: 'fragment-missing', files: 'query Primer {\n  font(id: 1) { ...Tnoe }\n}\nfragment Tone on Font { name }' },
  { kind: 'fragment-ambiguous', files: { 'a.graphql': 'query A { font(id: 1) { ...F } } fragment F on Font { name }',
    'b.graphql': 'query B { font(id: 1) { ...F } } fragment F on Font { nick }', 'c.graphql': 'query C {\n  font(id: 1) { ...F }\n}' } },
  { kind: 'graphql-js', files: 'query Primer {\n  font(id: 1) { anchor(side: UNDER) { x } }\n}', allRules: true },
];

/** The file of a case's message. */
export function messageFile({ kind }) {
  return `messages/${typeof kind === 'number' ? String(kind).padStart(2, '0') : kind}.txt`;
}
