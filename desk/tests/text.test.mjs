/** Texts on a terminal: widths of letters, lines and columns, tabs, long lines and colours. */
import assert from 'node:assert/strict';
import { after, test } from 'node:test';
import { Engine } from '../src/engine.mjs';
import { text } from '../src/show/text.mjs';
import { Text } from '../src/text.mjs';
import { displayWidth } from '../src/width.mjs';
import { checked } from './support/checked.mjs';

const engine = new Engine();
after(() => engine.stop());

async function shownLines(query) {
  const { report, project } = await checked(query, { engine });
  return text(report, project).split('\n');
}

test('letters with marks take one column, so that underlines stand right', async () => {
  assert.equal(displayWidth('ẹ́'.normalize('NFD')), 1);
  assert.equal(displayWidth('ɛ̃ŋ'), 2);
  const [line, under] = (await shownLines('{ font(id: 1) { p: anchor(label: "e\u0323\u0301", side: ABOVE) { x } p: anchor(label: "e\u0323\u0301", side: LEFT) { x } } }')).slice(3, 5);
  assert.equal(displayWidth(line.slice(0, line.indexOf('side: ABOVE'))), under.indexOf('^'));
});

test('tabs are shown as four columns, and the underline follows them', async () => {
  const [line, under] = (await shownLines('{\n\tfont(id: 1) {\n\t\tv: name\n\t\tv: nick } }')).slice(3, 5);
  assert.equal(line, '3 |         v: name');
  assert.equal(under, '  |         -  ^^^^ this is `Font.name`');
});

test('lines end with LF, CR LF or CR, and count the same', () => {
  for (const end of ['\n', '\r\n', '\r']) {
    const it = new Text('t', ['a', 'bc', '', 'd'].join(end));
    assert.deepEqual([it.line(2), it.line(3), it.position(it.body.indexOf('d'))], ['bc', '', { line: 4, column: 1 }]);
  }
});

test('of a very long line the part around what is wrong is shown', async () => {
  const lines = await shownLines(`{ font(id: 1) { ${Array.from({ length: 200 }, (_, i) => `n${i}: name`).join(' ')} v: name v: nick ${'size '.repeat(100)} } }`);
  assert.ok(lines.every((line) => line.length < 220));
  const at = lines.findIndex((line) => line.includes('^'));
  assert.equal(lines[at].indexOf('^'), lines[at - 1].indexOf('v: name') + 3);
});

test('a syntax error at the end of the text is shown there', async () => {
  const lines = await shownLines('query Q {\n  font(id: 1) { name }');
  assert.match(lines.join('\n'), /error\[syntax\]: Expected Name, found <EOF>\n --> q\.graphql:2:23\n/);
});

test('a control character in the source does not reach the terminal', async () => {
  const lines = await shownLines('{ font(id: 1) { v: name v: nick } } # \u001b[31mred');
  assert.doesNotMatch(lines.join('\n'), /\u001b/);
});

test('colours only where they are asked for', async () => {
  const { report, project } = await checked('{ font(id: 1) { v: name v: nick } }', { engine });
  assert.doesNotMatch(text(report, project), /\x1b/);
  const plain = text(report, project, { colour: true }).replace(/\x1b\[[0-9;]*m/g, '');
  assert.equal(plain, text(report, project));
});
