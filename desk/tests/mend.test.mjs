/** Help is shown only where the mended text itself was put to the proved check and passed. */
import assert from 'node:assert/strict';
import { after, test } from 'node:test';
import { editedTexts } from '../src/edits.mjs';
import { Engine } from '../src/engine.mjs';
import { text } from '../src/show/text.mjs';
import { Text } from '../src/text.mjs';
import { checked, kindsOf } from './support/checked.mjs';

const engine = new Engine();
after(() => engine.stop());

/** The texts with all fixes made, by file. */
function mendedFiles({ findings }, project) {
  const changed = editedTexts(findings.flatMap(({ fix }) => fix?.edits ?? []), project.texts);
  return Object.fromEntries([...project.texts.values()].map(({ file, body }) => [file, changed.get(file)?.body ?? body]));
}

for (const [what, files, kinds] of [
  ['conflicts', '{ font(id: 1) { v: name v: nick v: size a: anchor(side: ABOVE) { x } a: anchor(side: LEFT) { x } } }', [14, 15, 16]],
  ['a cycle over two fragments', 'query Q { font(id: 1) { ...A } }\nfragment A on Font { main { name ...B } }\nfragment B on Glyph { base { size ...A } }', [5]],
  ['two cycles in one fragment', 'query Q { font(id: 1) { ...A } }\nfragment A on Font {\n  name\n  ...A\n  main { code base { ...A nick } }\n}', [5, 5]],
  ['fragments that nothing uses', 'query Q { font(id: 1) { name } }\n\nfragment A on Font {\n  ...B\n}\n\nfragment B on Font { name }\n', [9, 9]],
  ['unused fragments with a cycle', 'query Q { font(id: 1) { name } }\nfragment A on Font { name ...B }\nfragment B on Font { nick ...A }\n', [5, 9, 9]],
  ['unused fragments in two files', { 'q.graphql': 'query Q { font(id: 1) { ...C } } fragment C on Font { name }', 'a.graphql': 'fragment A on Font { ...B ...C }',
    'b.graphql': 'fragment B on Font { size ...A }' }, [9, 9]],
  ['variables', 'query Q($a: Int, $b: Font, $b: Int, $id: ID, $s: Side) { font(id: $id) { anchor(side: $s) { x } } }', [12, 10, 12, 13]],
  ['a variable that a wrong type was given', 'query Q($s: Font) { font(id: 1) { anchor(side: $s) { x } } }', [10]],
  ['two files that share a fragment', { 'a.graphql': 'query A { font(id: 1) { v: name ...F } }', 'b.graphql': 'query B { font(id: 2) { ...F v: size } }',
    'f.graphql': 'fragment F on Font { v: nick }' }, [15, 14]],
]) {
  test(`${what}: the text with all fixes made passes`, async () => {
    const { report, project } = await checked(files, { engine });
    assert.deepEqual(kindsOf(report), kinds);
    assert.equal(report.mended, true);
    assert.ok(report.findings.every(({ tried }) => tried));
    const again = await checked(mendedFiles(report, project), { engine });
    assert.deepEqual([again.report.passed, kindsOf(again.report)], [true, []]);
  });
}

test('what cannot be mended by a small edit has no help', async () => {
  const wall = 'query Q { font(id: 1) { ...A } }\nfragment A on Font { ...B }\nfragment B on Font { ...A }';
  const { report, project } = await checked(wall, { engine });
  assert.deepEqual(kindsOf(report), [5]);
  assert.doesNotMatch(text(report, project), /help:|With all of this help/);
});

test('a variable that is torn between two types has no help', async () => {
  const { report, project } = await checked('query Q($n: Int) { font(id: 1) { a: anchor(at: $n) { x } b: anchor(side: $n) { x } } }', { engine });
  assert.deepEqual(kindsOf(report), [13]);
  assert.doesNotMatch(text(report, project), /help:/);
});

test('beside a query that cannot be mended, the help of another one is shown still', async () => {
  const files = { 'a.graphql': 'query A { font(id: 1) { v: name v: nick } }', 'b.graphql': 'query B($n: Int) { font(id: 1) { a: anchor(at: $n) { x } b: anchor(side: $n) { x } } }' };
  const { report, project } = await checked(files, { engine });
  assert.deepEqual(report.findings.map(({ kind, tried }) => [kind, tried]), [[15, true], [13, false]]);
  assert.equal(report.mended, false);
  assert.doesNotMatch(text(report, project), /With all of this help/);
});

test('the field that fewer queries have is the one to rename', async () => {
  const { report } = await checked({
    'a.graphql': 'query A { font(id: 1) { v: name ...F } }', 'b.graphql': 'query B { font(id: 2) { ...F } }', 'f.graphql': 'fragment F on Font { v: nick }',
  }, { engine });
  assert.equal(report.findings[0].fix.edits[0].span.file, 'a.graphql');
});

test('a fix that is made leaves the rest of the text as it is', async () => {
  const body = 'query Q($a: Int, $id: ID!) {\n  font(id: $id) { v: name, v: nick } # both\n}\n\nfragment Old on Font {\n  name\n}\n';
  const { report, project } = await checked(body, { engine });
  assert.equal(mendedFiles(report, project)['q.graphql'], 'query Q($id: ID!) {\n  font(id: $id) { v: name, nick } # both\n}\n\n');
});

test('edits that touch are both made; an edit that holds another takes its place', () => {
  const edit = (start, end, put) => ({ span: { file: 't', start, end }, text: put });
  const made = (...edits) => editedTexts(edits, new Map([['t', new Text('t', '...F h x')]])).get('t').body;
  assert.equal(made(edit(0, 5, ''), edit(5, 5, 'a: ')), 'a: h x');
  assert.equal(made(edit(5, 5, 'a: '), edit(0, 5, '')), 'a: h x');
  assert.equal(made(edit(0, 4, 'y'), edit(0, 8, 'z')), 'z');
  assert.equal(made(edit(0, 8, 'z'), edit(0, 4, 'y')), 'z');
  assert.equal(made(edit(5, 6, 'y'), edit(5, 6, 'z')), '...F y x');
  assert.equal(made(edit(5, 5, 'a: '), edit(5, 5, 'b: ')), '...F a: h x');
});
