/** Checks texts by the proved program, for tests. */
import { check } from '../../src/check.mjs';
import { Engine } from '../../src/engine.mjs';
import { Project } from '../../src/project.mjs';
import { readSchema } from '../../src/schema.mjs';
import { Text } from '../../src/text.mjs';

export const SCHEMA = `
scalar Stamp
enum Side { ABOVE BELOW LEFT }
input Filter { script: String range: [Int!] inner: Filter }
interface Named { name: String size: Int flag: Boolean owner: Named }
type Font implements Named {
  name: String size: Int flag: Boolean owner: Named nick: String weight: Int! side: Side
  glyphs(first: Int = 10, filter: Filter, need: Int! = 1): [Glyph!]!
  anchor(side: Side, at: [Int], by: Filter, label: String, scale: Float): Anchor
  main: Glyph
}
type Glyph implements Named {
  name: String size: Int flag: Boolean owner: Named nick: String code: Int! base: Font
  anchor(side: Side, at: [Int], by: Filter): Anchor
}
type Anchor { x: Int y: Int label: String! }
union Thing = Font | Glyph
type Query { font(id: ID!): Font named: Named thing: Thing }
`;

export function schemaOf(text) {
  const { schema, errors } = readSchema([new Text('schema.graphql', text)]);
  if (!schema) throw new Error(errors.join('\n'));
  return schema;
}

export function projectOf(files) {
  return new Project(Object.entries(typeof files === 'string' ? { 'q.graphql': files } : files).map(([name, body]) => new Text(name, body)));
}

/** The report on texts by file name, or on one text. */
export async function checked(files, { schema = SCHEMA, engine, ...options } = {}) {
  const project = projectOf(files);
  const own = engine ?? new Engine();
  try {
    return { project, report: await check(project, schemaOf(schema), own, options) };
  } finally {
    if (!engine) own.stop();
  }
}

/** The kind of each finding, or its rule where the check was not asked. */
export function kindsOf({ findings }) {
  return findings.map(({ kind, rule }) => kind ?? rule);
}
