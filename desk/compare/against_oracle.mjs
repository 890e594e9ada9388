#!/usr/bin/env node
/**
 * Holds the desk to the oracle, document by document.
 *
 *   python3 desk/compare/oracle_cases.py ORACLE 5000 1 | node desk/compare/against_oracle.mjs
 *
 * Of each document:
 *   the desk's image is the oracle's, word for word, and the proved program's reply is the oracle's;
 *   the fields (or the variable, argument, fragment) that the reply names stand where the oracle says;
 *   the desk finds nothing exactly where the reply is 0, and the reply's cause is among its findings, at the same places;
 *   every conflict has two ways that lead to it;
 *   where the help is said to be tried, the text with all fixes made passes.
 * It also counts where graphql-js's own rules say otherwise. Exit 1 where something differs.
 */
import { createInterface } from 'node:readline';
import { check } from '../src/check.mjs';
import { editedTexts } from '../src/edits.mjs';
import { Engine } from '../src/engine.mjs';
import { isConflict } from '../src/kinds.mjs';
import { pack } from '../src/pack.mjs';
import { Project } from '../src/project.mjs';
import { readSchema } from '../src/schema.mjs';
import { Text } from '../src/text.mjs';
import { inTurn } from '../src/turns.mjs';
import { peerKinds } from './peer.mjs';

const BUDGET = 4000; // as in oracle_cases.py
const engine = new Engine();
const counts = new Map();
const count = (what) => counts.set(what, (counts.get(what) ?? 0) + 1);

const lines = [];
for await (const line of createInterface({ input: process.stdin })) lines.push(line);
await inTurn(lines, async (line) => {
  const one = JSON.parse(line);
  count('documents');
  for (const complaint of await complaints(one)) {
    count('DIFFERENT');
    console.log(`${one.name}: ${complaint}\n${one.text}\n`);
  }
});
engine.stop();
for (const [what, n] of [...counts].sort(([x], [y]) => x.localeCompare(y, 'en', { numeric: true }))) console.log(`${what}: ${n}`);
process.exitCode = counts.get('DIFFERENT') ? 1 : 0;

async function complaints(one) {
  const { schema, errors } = readSchema([new Text('schema', one.schema)]);
  if (!schema) return [`the schema is refused: ${errors[0].message}`];
  const project = new Project([new Text('query', one.text)]);
  const report = await check(project, schema, engine, { budget: BUDGET });
  if (one.no_image) {
    count('without an image');
    return report.findings.some(({ kind }) => kind === null) ? [] : ['it has no image, and nothing was said'];
  }
  const unit = { operations: project.definitions('OperationDefinition'), fragments: project.definitions('FragmentDefinition') };
  const packed = pack(schema, unit, project.target);
  if (String([...packed.words]) !== String(one.words)) return ['another image'];
  const reply = Object.values(await engine.ask(packed.words, BUDGET));
  if (String(reply) !== String(one.reply)) return [`reply ${reply}, oracle ${one.reply}`];
  if (report.findings.some(({ kind }) => kind === null)) {
    count('refused before the check: it does not fit the schema');
    return [];
  }
  count(`kind ${reply[0]}`);
  countPeer(schema, project, reply[0]);
  return [...findingComplaints(report, one, project), ...await mendComplaints(report, project, schema)];
}

function findingComplaints({ findings }, { reply: [kind], places }, project) {
  const out = [];
  const errors = findings.filter(({ severity }) => severity === 'error');
  for (const finding of errors) {
    count('findings');
    if (isConflict(finding) && !finding.places.every(({ reached }) => reached)) out.push(`no way to ${finding.title}`);
  }
  if (!kind !== !errors.length) out.push(`kind ${kind}, but the findings are ${errors.map((one) => one.kind)}`);
  const isCause = (finding) => finding.kind === kind && samePlaces(finding, places, project);
  if (kind && !errors.some(isCause)) out.push(`the cause of kind ${kind} is not among the findings`);
  return out;
}

function samePlaces(finding, places, project) {
  return places.every(([line, column], i) => {
    const at = project.text(finding.places[i].span).position(finding.places[i].span.start);
    return at.line === line && at.column === column;
  });
}

/** Makes all fixes in the text and checks it anew. */
async function mendComplaints(report, project, schema) {
  const fixes = report.findings.filter(({ tried, fix }) => tried && fix);
  if (report.passed || !report.mended) {
    if (!report.passed) count('refused, and not all of it can be mended by the help');
    return [];
  }
  count('refused, and mended by the help');
  const texts = editedTexts(fixes.flatMap(({ fix }) => fix.edits), project.texts);
  const again = await check(new Project([texts.get('query') ?? project.texts.get('query')]), schema, engine, { budget: BUDGET });
  return again.passed ? [] : [`not mended by its fixes:\n${texts.get('query')?.body}\n`];
}

function countPeer(schema, project, kind) {
  const theirs = peerKinds(schema, project.documents.get('query'));
  if (kind && !theirs.length) count('graphql-js passes what is refused here');
  if (!kind && theirs.length) count('graphql-js refuses what passes here');
}
