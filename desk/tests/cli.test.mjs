/** The command: which files it takes, its exit status, its forms of output. */
import assert from 'node:assert/strict';
import { readFileSync } from 'node:fs';
import path from 'node:path';
import { test } from 'node:test';
import { DESK, EXAMPLE, folderOf, run } from './support/command.mjs';

const PASSES = 'query Chart($font: String!) { font(name: $font) { name } }';

test('the primer over several files, as it is stored', () => {
  const { stdout, status } = run(['check', '--schema', 'schema.graphql', 'queries/*.graphql', 'fragments']);
  assert.equal(stdout, readFileSync(path.join(DESK, 'stored/primer.txt'), 'utf8'));
  assert.equal(status, 1);
});

test('a newcomer with a schema and two files sees both fields', () => {
  const folder = folderOf({
    'schema.graphql': 'type Query { font: Font }\ntype Font { anchor(side: String): Int }',
    'page.graphql': 'query Page {\n  font {\n    pos: anchor(side: "below")\n    ...Tone\n  }\n}\n',
    'tone.graphql': 'fragment Tone on Font {\n  pos: anchor(side: "above")\n}\n',
  });
  const { stdout, status } = run(['check', '--schema', 'schema.graphql', 'page.graphql', 'tone.graphql'], { cwd: folder });
  assert.equal(status, 1);
  assert.match(stdout, /page\.graphql:3:5[^]*pos: anchor\(side: "below"\)[^]*tone\.graphql:2:3[^]*pos: anchor\(side: "above"\)/);
});

test('files, folders, patterns, or the files of .graphqlrc.json: the same answer', () => {
  const ways = [['queries/chart.graphql', 'queries/primer.graphql', 'fragments/mark.graphql', 'fragments/tone.graphql'], ['queries', 'fragments'],
    ['{queries,fragments}/*.graphql'], ['queries/**', 'fragments/**/*.graphql'], ['queries/?*.graphql', 'fragments'], ['queries', './queries/chart.graphql', `${EXAMPLE}/queries`, 'fragments'], []];
  const answers = ways.map((way) => run(['check', '--schema', 'schema.graphql', ...way]));
  for (const { stdout, status } of answers) {
    assert.equal(status, 1);
    assert.equal(stdout.split('\n').slice(0, 20).join('\n').replace(/^.*also in.*$/m, ''), answers[0].stdout.split('\n').slice(0, 20).join('\n'));
  }
});

test('a schema in the folder of queries is not taken for a query, and is found there', () => {
  const folder = folderOf({ 'schema.graphql': readFileSync(path.join(EXAMPLE, 'schema.graphql')), 'a.graphql': PASSES });
  const { stdout, stderr, status } = run(['check', '.'], { cwd: folder });
  assert.deepEqual([stdout, stderr, status], ['passed: 1 query, and each name in the answers stands for one thing\n', 'schema: schema.graphql\n', 0]);
});

test('NAME.schema.graphql is the schema of NAME.graphql', () => {
  const { stdout, stderr, status } = run(['check', 'examples/primer.graphql'], { cwd: path.join(DESK, '..') });
  assert.match(stdout, /^error\[16\][^]*examples\/primer\.graphql:6:7 in query Primer[^]*examples\/primer\.graphql:18:3 in fragment Tone/);
  assert.deepEqual([stderr, status], ['schema: examples/primer.schema.graphql\n', 1]);
  assert.equal(run(['check', '--schema', 'examples/primer.schema.graphql', 'examples/primer_fixed.graphql'], { cwd: path.join(DESK, '..') }).status, 0);
});

test('a schema in several files', () => {
  const folder = folderOf({ 'a.graphql': 'type Query { font: Font }', 'b.graphql': 'type Font { name: String }', 'q.graphql': '{ font { name } }' });
  assert.equal(run(['check', '--schema', 'a.graphql', '--schema', 'b.graphql', 'q.graphql'], { cwd: folder }).status, 0);
});

test('several operations in one file are checked one by one', () => {
  const folder = folderOf({ 'q.graphql': `${PASSES} query Bad($font: String!) { font(name: $font) { v: name v: __typename } }` });
  const { stdout, status } = run(['check', '--schema', path.join(EXAMPLE, 'schema.graphql'), 'q.graphql'], { cwd: folder });
  assert.match(stdout, /refused: 1 error in 2 queries \(1 passed, 1 refused\)/);
  assert.equal(status, 1);
});

test('a budget', () => {
  const { stdout, status } = run(['check', '--budget', '5', 'queries/chart.graphql', 'fragments']);
  assert.match(stdout, /^error\[17\][^]*budget of 5 units of work ran out[^]*--budget 20/);
  assert.equal(status, 1);
  assert.equal(run(['check', '--budget', '20', 'queries/chart.graphql', 'fragments']).status, 0);
});

test('no colours but on a terminal', () => {
  assert.doesNotMatch(run(['check']).stdout, /\x1b/);
});

test('explain: a kind by number and by name', () => {
  assert.match(run(['explain', '16']).stdout, /^16 conflict-arguments: Two fields are stored under one name/);
  assert.equal(run(['explain', 'conflict-arguments']).stdout, run(['explain', '16']).stdout);
});

test('help is no error', () => {
  for (const words of [['--help'], ['help'], ['check', '--help']]) {
    const { stdout, status } = run(words);
    assert.equal(status, 0);
    assert.match(stdout, /^usage: ponybluster check/);
  }
});
