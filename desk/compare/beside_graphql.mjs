#!/usr/bin/env node
/**
 * The texts of compare/peers through the desk and through graphql-js's own rules: which kinds each finds, and where they differ.
 *
 *   node desk/compare/beside_graphql.mjs                     the table
 *   node desk/compare/beside_graphql.mjs SCHEMA QUERY        all that graphql-js's validate says of one file
 */
import { readFileSync } from 'node:fs';
import { fileURLToPath } from 'node:url';
import { check } from '../src/check.mjs';
import { Engine } from '../src/engine.mjs';
import { Source, parse, validate, version } from '../src/graphql.mjs';
import { Project } from '../src/project.mjs';
import { readSchema } from '../src/schema.mjs';
import { Text } from '../src/text.mjs';
import { peerKinds } from './peer.mjs';

const PEERS = fileURLToPath(new URL('../../compare/peers/', import.meta.url));
const read = (file) => new Text(file, readFileSync(file, 'utf8'));
const [schemaFile = `${PEERS}schema.graphql`, query] = process.argv.slice(2);
const { schema } = readSchema([read(schemaFile)]);

if (query) {
  for (const error of validate(schema, parse(new Source(read(query).body, query)))) console.log(`${error}\n`);
} else {
  const engine = new Engine();
  let same = 0;
  let all = 0;
  for (const block of readFileSync(`${PEERS}texts.txt`, 'utf8').split('== ').slice(1)) {
    const [head, ...lines] = block.split('\n');
    const project = new Project([new Text('q', lines.join('\n'))]);
    const report = await check(project, schema, engine);
    const ours = [...new Set(report.findings.map(({ kind, rule }) => kind ?? rule))].sort((x, y) => x - y);
    const theirs = peerKinds(schema, project.documents.get('q'));
    all += 1;
    if (String(ours) === String(theirs)) same += 1;
    else console.log(`${head.split('|')[0].trim()}: here ${ours.join(' ') || 'nothing'}, graphql-js ${theirs.join(' ') || 'nothing'}`);
  }
  engine.stop();
  console.log(`graphql-js ${version}: the same kinds on ${same} of ${all} texts`);
}
