/** What the check makes of a project: units, shared fragments, what differs, and what stands in the way. */
import assert from 'node:assert/strict';
import { after, test } from 'node:test';
import { Engine, EngineError, programCommand } from '../src/engine.mjs';
import { text } from '../src/show/text.mjs';
import { checked, kindsOf } from './support/checked.mjs';
import { folderOf } from './support/command.mjs';

const engine = new Engine();
after(() => engine.stop());

test('all conflicts of a query are shown', async () => {
  const { report } = await checked('{ font(id: 1) { v: name v: nick v: size a: anchor(side: ABOVE) { x } a: anchor(side: LEFT) { x } } }', { engine });
  assert.deepEqual(kindsOf(report), [14, 15, 16]);
});

test('a conflict that two queries reach is one finding that names both', async () => {
  const { report } = await checked('query A { font(id: 1) { ...F } } query B { font(id: 2) { ...F } } fragment F on Font { v: name v: nick }', { engine });
  assert.deepEqual(report.findings.map(({ operations }) => operations), [['query A', 'query B']]);
});

test('one bad query does not hide another', async () => {
  const { report } = await checked('query A { font(id: 1) { v: name v: nick } } query B($s: Side) { font(id: 1) { name } } query C { font(id: 1) { name } }', { engine });
  assert.deepEqual(kindsOf(report), [15, 12]);
  assert.deepEqual(report.queries.map(({ state }) => state), ['refused', 'refused', 'passed']);
});

test('a spread means the fragment of its own file; a name in two other files is unclear', async () => {
  const own = { 'a.graphql': '{ font(id: 1) { ...F } } fragment F on Font { name }', 'b.graphql': '{ font(id: 1) { ...F } } fragment F on Font { nick }' };
  assert.deepEqual(kindsOf((await checked(own, { engine })).report), []);
  const unclear = await checked({ ...own, 'c.graphql': '{ font(id: 1) { ...F } }' }, { engine });
  assert.deepEqual(kindsOf(unclear.report), ['fragment-ambiguous']);
  assert.deepEqual(unclear.report.queries.map(({ state }) => state), ['passed', 'passed', 'not checked']);
});

test('of an unused fragment that spreads a used one only the first is unused', async () => {
  const { report } = await checked('{ font(id: 1) { ...A } } fragment A on Font { name } fragment B on Font { ...A } fragment C on Font { ...B }', { engine });
  assert.deepEqual(report.findings.map(({ title }) => title), ['fragment `B` is used by no query', 'fragment `C` is used by no query']);
});

test('a query that does not fit the schema is not counted as passed, and the others are checked', async () => {
  const { report } = await checked('query A { font(id: 1) { nmae } } query B { font(id: 1) { name } }', { engine });
  assert.deepEqual(report.queries.map(({ state }) => state), ['not checked', 'passed']);
  assert.equal(report.passed, false);
});

test('an operation that the schema has no root for is told at its place', async () => {
  const { report, project } = await checked('query A { font(id: 1) { name } }\nmutation M { font(id: 1) { name } }', { engine });
  assert.match(text(report, project), /error\[schema\]: The schema has no mutation type\n --> q\.graphql:2:1/);
});

test('of very many places that do not fit, fifty are shown and the rest is counted', async () => {
  const { report } = await checked(`{ font(id: 1) { ${Array.from({ length: 300 }, (_, i) => `bad${i}`).join(' ')} } }`, { engine });
  assert.equal(report.findings.length, 50);
  assert.match(report.findings.at(-1).hints.at(-1), /250 more places/);
});

test('what graphql-js lets through: __typename beside a field, and a fragment behind a fragment', async () => {
  assert.deepEqual(kindsOf((await checked('{ thing { ... on Font { v: __typename } ... on Glyph { v: code } } }', { engine })).report), [14]);
  const behind = await checked('{ named { ...F0 } } fragment F0 on Named { ...F2 c: flag } fragment F2 on Named { ...F3 } fragment F3 on Named { ... on Font { c: anchor { x } } }', { engine });
  assert.deepEqual(kindsOf(behind.report), [14]);
});

test('with all rules, what graphql-js says more is shown once; what the check has said is not said again', async () => {
  const query = 'query Q($id: ID, $s: String) { font(id: $id) { anchor(by: {inner: {script: $s}, range: [$s]}) { x } } }';
  assert.deepEqual(kindsOf((await checked(query, { engine })).report), [13]);
  assert.deepEqual(kindsOf((await checked(query, { engine, allRules: true })).report).sort(), [13, 'graphql-js']);
});

for (const [first, second, what, remark] of [
  ['by: {script: "yo", range: [1, 2]}', 'by: {range: [1, 3], script: "yo"}', 'by.range[1]', undefined],
  ['at: [1]', 'at: [1, 2]', 'at', '1 and 2 members'],
  ['label: "\u1eb9"', 'label: "e\u0323"', 'label', 'they look the same, but one has U+1EB9 where the other has U+0065 U+0323'],
  ['scale: 1.0', 'scale: 1.00', 'scale', 'the same number, written in two ways: the rule compares what is written'],
  ['side: null', '', 'side', 'null is a value: it is not the same as leaving the argument out'],
]) {
  test(`what differs: ${first} against ${second || 'nothing'}`, async () => {
    const call = (given) => `anchor${given ? `(${given})` : ''} { x }`;
    const { report } = await checked(`{ font(id: 1) { ${call(first)} ${call(second)} } }`, { engine });
    assert.deepEqual(report.findings[0].differences.map((one) => [one.what, one.remark]), [[what, remark]]);
  });
}

test('only the units with a part in the files that are asked for are checked', async () => {
  const files = { 'a.graphql': '{ font(id: 1) { v: name v: nick } }', 'b.graphql': '{ font(id: 1) { ...F } }', 'f.graphql': 'fragment F on Font { v: name v: nick }' };
  const { report } = await checked(files, { engine, only: new Set(['f.graphql']) });
  assert.deepEqual(report.queries.map(({ file }) => file), ['b.graphql']);
});

test('a program that is missing, ends, or answers what it never may, is told as such', async () => {
  const folder = folderOf({});
  const { writeFileSync } = await import('node:fs');
  writeFileSync(`${folder}/unkept`, '#!/bin/sh\necho 0 0 0 0 8 0\ncat >/dev/null\n', { mode: 0o755 });
  await assert.rejects(checked('{ font(id: 1) { name } }', { engine: new Engine([`${folder}/unkept`]) }), /gave the line "0 0 0 0 8 0"/);
  await assert.rejects(checked('{ font(id: 1) { name } }', { engine: new Engine(['/nowhere/replay']) }), EngineError);
  const ended = new Engine(['/bin/false']);
  await assert.rejects(checked('query A { font(id: 1) { name } } query B { font(id: 1) { name } }', { engine: ended }), EngineError);
  await assert.rejects(ended.ask(new Uint32Array(20), 1), EngineError);
  assert.throws(() => programCommand({ PONYBLUSTER_REPLAY: '/nowhere/replay' }), /there is no program \/nowhere\/replay/);
});
