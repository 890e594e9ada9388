/** The language server, by a scripted editor. */
import assert from 'node:assert/strict';
import { readFileSync, writeFileSync } from 'node:fs';
import path from 'node:path';
import { test } from 'node:test';
import { EXAMPLE, folderOf } from './support/command.mjs';
import { Editor, applied, withEditor } from './support/editor.mjs';

const read = (file) => readFileSync(path.join(EXAMPLE, file), 'utf8');
const FILES = Object.fromEntries(['.graphqlrc.json', 'schema.graphql', 'queries/primer.graphql', 'queries/chart.graphql', 'fragments/mark.graphql', 'fragments/tone.graphql']
  .map((file) => [file, read(file)]));
const PRIMER = 'queries/primer.graphql';
const TONE = 'fragments/tone.graphql';
const PATIENCE = { timeout: 60_000 };

test('an editor sees both fields on open, takes the fix, and sees nothing wrong on change', PATIENCE, () => withEditor(folderOf(FILES), async (editor, { capabilities }) => {
  assert.deepEqual(capabilities.textDocumentSync, { openClose: true, change: 1, save: true });

  const [opened, other] = [editor.next(PRIMER), editor.next(TONE)];
  editor.open(PRIMER, FILES[PRIMER]);
  const [diagnostic] = await opened;
  assert.deepEqual([diagnostic.code, diagnostic.source, diagnostic.severity], ['conflict-arguments', 'ponybluster', 1]);
  assert.deepEqual(diagnostic.range, { start: { line: 5, character: 6 }, end: { line: 5, character: 30 } });
  assert.match(diagnostic.message, /two fields are stored as `pos`, with different arguments[^]*In the answer: font\.glyph\.pos\.[^]*Help: /);
  assert.equal(diagnostic.relatedInformation[0].location.uri, editor.uri(TONE));
  assert.deepEqual(diagnostic.relatedInformation[0].location.range.start, { line: 1, character: 2 });
  assert.match(diagnostic.relatedInformation[0].message, /side: ABOVE.*\(Primer → \.\.\.Mark → \.\.\.Tone\)/);
  const [second] = await other;
  assert.equal(second.relatedInformation[0].location.uri, editor.uri(PRIMER));

  const [action] = await editor.request('textDocument/codeAction', { textDocument: { uri: editor.uri(PRIMER) }, range: diagnostic.range, context: { diagnostics: [] } });
  assert.equal(action.title, 'Store this field as posBelow');
  const mended = applied(FILES[PRIMER], action.edit.changes[editor.uri(PRIMER)][0]);
  assert.match(mended, /posBelow: anchor\(side: BELOW\)/);

  const [changed, cleared] = [editor.next(PRIMER), editor.next(TONE)];
  editor.change(PRIMER, mended);
  assert.deepEqual([await changed, await cleared], [[], []]);
}));

test('on save, what has changed on the disk is read again', PATIENCE, () => withEditor(folderOf(FILES), async (editor) => {
  const opened = editor.next(PRIMER);
  editor.open(PRIMER, FILES[PRIMER]);
  assert.equal((await opened).length, 1);
  writeFileSync(path.join(editor.root, TONE), 'fragment Tone on Glyph {\n  tone: anchor(side: ABOVE) { x y }\n}\n');
  const saved = editor.next(PRIMER);
  editor.notify('textDocument/didSave', { textDocument: { uri: editor.uri(PRIMER) } });
  assert.deepEqual(await saved, []);
}));

test('a shared fragment that is opened shows the conflicts of all queries that use it', PATIENCE, () => withEditor(folderOf(FILES), async (editor) => {
  const opened = editor.next(TONE);
  editor.open(TONE, FILES[TONE]);
  assert.equal((await opened)[0].code, 'conflict-arguments');
}));

test('half a text, a schema that is wrong, and a misfit are shown where they are', PATIENCE, () => withEditor(folderOf(FILES), async (editor) => {
  const half = editor.next(PRIMER);
  editor.open(PRIMER, 'query Primer {');
  assert.equal((await half)[0].code, 'syntax');
  const misfit = editor.next(PRIMER);
  editor.change(PRIMER, 'query Primer { fnt }');
  assert.equal((await misfit)[0].code, 'schema');
  const schema = editor.next('schema.graphql');
  editor.open('schema.graphql', 'type Query { font: Nothing }');
  assert.equal((await schema)[0].code, 'schema-text');
  const well = editor.next('schema.graphql');
  editor.change('schema.graphql', FILES['schema.graphql']);
  assert.deepEqual(await well, []);
}));

test('without a config the schema beside the query is taken', PATIENCE, () => withEditor(folderOf({ 'schema.graphql': FILES['schema.graphql'], 'a.graphql': '', 'tone.graphql': FILES[TONE] }), async (editor) => {
  const opened = editor.next('a.graphql');
  editor.open('a.graphql', 'query A { font(name: "a") { glyph(letter: "b") { ...Tone pos: width } } }');
  assert.equal((await opened)[0].code, 'conflict-shape');
}));

test('a config below the editor\'s folder is found from the file that is open', PATIENCE, () => withEditor(
  folderOf(Object.fromEntries(Object.entries(FILES).map(([name, body]) => [`fonts/${name}`, body]))), async (editor) => {
    const opened = editor.next(`fonts/${TONE}`);
    editor.open(`fonts/${TONE}`, FILES[TONE]);
    assert.equal((await opened)[0].code, 'conflict-arguments');
  }));

test('no schema at all is said once; odd messages do not end the server', PATIENCE, () => withEditor(folderOf({ 'a.graphql': '' }), async (editor) => {
  const said = editor.hope('window/showMessage');
  editor.open('a.graphql', '{ a }');
  assert.match((await said).message, /^ponybluster: which schema\?/);
  editor.child.stdin.write('Content-Length: 3\r\n\r\n{"a');
  editor.notify('no/such/thing', {});
  editor.notify('textDocument/didOpen');
  assert.equal((await editor.request('textDocument/codeAction', {})).code, -32603);
  assert.deepEqual(await editor.request('no/such/request'), { code: -32601, message: 'there is no no/such/request' });
}));

test('an editor that goes away ends the server', PATIENCE, async () => {
  const editor = new Editor(folderOf(FILES));
  await editor.start();
  editor.child.stdin.end();
  assert.equal(await editor.closed, 1);
});
