/** Bad input: a clear message and status 2 or 1, never a stack trace. */
import assert from 'node:assert/strict';
import { spawn, spawnSync } from 'node:child_process';
import { readFileSync, writeFileSync } from 'node:fs';
import path from 'node:path';
import { test } from 'node:test';
import { COMMAND, DESK, EXAMPLE, folderOf, run } from './support/command.mjs';

const SCHEMA = readFileSync(path.join(EXAMPLE, 'schema.graphql'), 'utf8');
const GOOD = 'query Good($font: String!) { font(name: $font) { name } }';

/** Runs the command on files and holds it to a status, to what it says, and to no stack trace. */
function refused(files, words, status, said) {
  const cwd = folderOf(files);
  const { stdout, stderr, status: got } = run(words, { cwd });
  assert.equal(got, status, stderr + stdout);
  assert.match(stdout + stderr, said);
  assert.doesNotMatch(stdout + stderr, /\n\s+at |node:internal|a fault of this tool/);
}

for (const [what, files, words, status, said] of [
  ['no command', {}, [], 2, /which command\?/],
  ['a command that is none', {}, ['chekc'], 2, /there is no command chekc/],
  ['an option that is none', {}, ['check', '--what'], 2, /Unknown option '--what'/],
  ['an option without its value', { 'q.graphql': GOOD }, ['check', 'q.graphql', '--schema'], 2, /--schema/],
  ['a format that is none', { 'q.graphql': GOOD, 'schema.graphql': SCHEMA }, ['check', '--format', 'xml', 'q.graphql'], 2, /there is no format xml/],
  ['a budget that is none', { 'q.graphql': GOOD, 'schema.graphql': SCHEMA }, ['check', '--budget', 'many', 'q.graphql'], 2, /--budget takes a number from 0 to 1,000,000/],
  ['a budget over a million', { 'q.graphql': GOOD, 'schema.graphql': SCHEMA }, ['check', '--budget', '1000001', 'q.graphql'], 2, /--budget takes a number from 0 to 1,000,000/],
  ['no queries', { 'schema.graphql': SCHEMA }, ['check', '--schema', 'schema.graphql'], 2, /which queries\?/],
  ['no schema', { 'q.graphql': GOOD }, ['check', 'q.graphql'], 2, /which schema\?[^]*there is no q\.schema\.graphql or schema\.graphql near q\.graphql/],
  ['a file that is not there', { 'schema.graphql': SCHEMA }, ['check', 'nowhere.graphql'], 2, /there is no file nowhere\.graphql/],
  ['a schema that is not there', { 'q.graphql': GOOD }, ['check', '--schema', 'nowhere.graphql', 'q.graphql'], 2, /there is no file nowhere\.graphql/],
  ['a pattern that finds nothing', { 'schema.graphql': SCHEMA }, ['check', 'queries/*.graphql'], 2, /no file is named like queries\/\*\.graphql/],
  ['a folder without queries', { 'schema.graphql': SCHEMA, 'empty/readme.txt': '' }, ['check', '--schema', 'schema.graphql', 'empty'], 2, /the folder empty has no \.graphql or \.gql file/],
  ['only the schema', { 'schema.graphql': SCHEMA }, ['check', '--schema', 'schema.graphql', 'schema.graphql'], 2, /the schema is the only file that was named/],
  ['only fragments', { 'schema.graphql': SCHEMA, 'f.graphql': 'fragment F on Font { name }' }, ['check', 'f.graphql'], 2, /there is no query in f\.graphql: nothing was checked/],
  ['an empty file', { 'schema.graphql': SCHEMA, 'q.graphql': '\n# nothing yet\n' }, ['check', 'q.graphql'], 2, /there is no query in q\.graphql/],
  ['a folder in place of a schema', { 's/x.txt': '', 'q.graphql': GOOD }, ['check', '--schema', 's', 'q.graphql'], 2, /the folder s has no \.graphql or \.gql file/],
  ['a query that is not GraphQL', { 'schema.graphql': SCHEMA, 'q.graphql': 'query {' }, ['check', 'q.graphql'], 2, /error\[syntax\][^]*q\.graphql:1:8/],
  ['a schema that is not GraphQL', { 'schema.graphql': 'type Query {\n  font Font\n}', 'q.graphql': GOOD }, ['check', 'q.graphql'], 2, /error\[schema-text\]: Expected `:`, found Name `Font`\n --> schema\.graphql:2:8/],
  ['a schema with a type that it does not have', { 'schema.graphql': 'type Query { font: Font }', 'q.graphql': GOOD }, ['check', 'q.graphql'], 2, /error\[schema-text\]: Unknown type `Font`\n --> schema\.graphql:1:20/],
  ['a schema without a query type', { 'schema.graphql': 'type Font { name: String }', 'q.graphql': GOOD }, ['check', 'q.graphql'], 2, /error\[schema-text\]: Query root type must be provided\n --> schema\.graphql:1:1/],
  ['a type that breaks its interface', { 'schema.graphql': 'interface Named { name: String }\ntype Query implements Named { size: Int }', 'q.graphql': '{ size }' }, ['check', 'q.graphql'], 2, /error\[schema-text\]: Interface field Named\.name expected but Query does not provide it/],
  ['a schema that is a query', { 'schema.graphql': GOOD, 'q.graphql': GOOD }, ['check', 'q.graphql'], 2, /error\[schema-text\]/],
  ['a schema in JSON', { 'schema.json': '{"data": {"__schema": {}}}', 'q.graphql': GOOD }, ['check', '--schema', 'schema.json', 'q.graphql'], 2, /error\[schema-text\][^]*schema\.json:1:2/],
  ['an empty schema', { 'schema.graphql': '', 'q.graphql': GOOD }, ['check', 'q.graphql'], 2, /error\[schema-text\]/],
  ['a query that does not fit its schema', { 'schema.graphql': SCHEMA, 'q.graphql': 'query Q { fnt { name } }' }, ['check', 'q.graphql'], 1, /error\[schema\]: Cannot query field `fnt`[^]*did you mean `font`\?[^]*1 not checked/],
  ['a fragment that no file has', { 'schema.graphql': SCHEMA, 'q.graphql': '{ font(name: "a") { ...Mark } }' }, ['check', 'q.graphql'], 1, /there is no fragment `Mark`[^]*give the file that defines it too/],
  ['a fragment in two files', { 'schema.graphql': SCHEMA, 'q.graphql': '{ font(name: "a") { ...F } }', 'a.graphql': 'fragment F on Font { name }', 'b.graphql': 'fragment F on Font { name }' }, ['check', 'q.graphql', 'a.graphql', 'b.graphql'], 1, /`\.\.\.F` can mean 2 fragments[^]*a\.graphql:1:1[^]*b\.graphql:1:1/],
  ['a fragment twice in one file', { 'schema.graphql': SCHEMA, 'q.graphql': '{ font(name: "a") { ...F } } fragment F on Font { name } fragment F on Font { name }' }, ['check', 'q.graphql'], 1, /`\.\.\.F` can mean 2 fragments/],
  ['a file that is not UTF-8', { 'schema.graphql': SCHEMA, 'q.graphql': Buffer.from('query Q {\n  font(name: "caf\xe9") { name }\n}\n', 'latin1') }, ['check', 'q.graphql'], 2, /q\.graphql:2: this line is not UTF-8; save the file as UTF-8/],
  ['a schema that is not UTF-8', { 'schema.graphql': Buffer.from([0xff, 0xfe, 0x74, 0x00]), 'q.graphql': GOOD }, ['check', 'q.graphql'], 2, /schema\.graphql:1: this line is not UTF-8/],
  ['a text nested without end', { 'schema.graphql': SCHEMA, 'q.graphql': `query Q { ${'font { '.repeat(50000)}` }, ['check', 'q.graphql'], 2, /error\[syntax\]: The text is nested too deep to be read/],
  ['a config that is not JSON', { '.graphqlrc': 'schema: schema.graphql', 'schema.graphql': SCHEMA }, ['check'], 2, /\.graphqlrc is not JSON/],
  ['a config with several projects', { '.graphqlrc.json': '{"projects": {}}' }, ['check'], 2, /has several projects/],
  ['a config with odd values', { '.graphqlrc.json': '{"schema": 7}' }, ['check'], 2, /"schema" and "documents" are file names or lists of them/],
  ['a page that cannot be written', { 'schema.graphql': SCHEMA, 'q.graphql': GOOD }, ['check', '--sheet', 'no/folder/out.html', 'q.graphql'], 2, /no\/folder\/out\.html cannot be written \(ENOENT\)/],
  ['explain without a word', {}, ['explain'], 2, /explain takes a packed image, or a kind from 0 to 18/],
  ['explain with a kind that is none', {}, ['explain', '99'], 2, /there is no file 99, and no kind of that name/],
]) {
  test(what, () => refused(files, words, status, said));
}

test('a byte order mark is no fault', () => {
  const cwd = folderOf({ 'schema.graphql': `\ufeff${SCHEMA}`, 'q.graphql': `\ufeff${GOOD}` });
  assert.equal(run(['check', 'q.graphql'], { cwd }).status, 0);
});

test('a query over the size of the door is checked, and kind 18 is explained', () => {
  const many = Array.from({ length: 1000 }, (_, i) => `n${i}: name`).join('\n');
  const cwd = folderOf({ 'schema.graphql': SCHEMA, 'q.graphql': `query Q { font(name: "a") {\n${many} } }`, 'bad.graphql': `query B { font(name: "a") {\n${many} n0: __typename } }` });
  const { stdout, status } = run(['check', '--budget', '5000', 'q.graphql'], { cwd });
  assert.equal(status, 0);
  assert.match(stdout, /^warning\[18\]: query Q is too large for the door: packed, it has 36,\d+ bytes[^]*`check_query_lent`/);
  const bad = run(['check', '--budget', '5000', 'bad.graphql'], { cwd });
  assert.equal(bad.status, 1);
  assert.match(bad.stdout, /error\[15\]/);
});

test('a missing program, graphql-js or node is told, with what mends it', () => {
  const cwd = folderOf({ 'schema.graphql': SCHEMA, 'q.graphql': GOOD });
  const lost = run(['check', 'q.graphql'], { cwd, env: { ...process.env, PONYBLUSTER_REPLAY: '/nowhere/replay' } });
  assert.deepEqual([lost.status, /there is no program \/nowhere\/replay/.test(lost.stderr)], [2, true]);
  const bare = folderOf({});
  const tools = spawnSync('bash', ['-c', `for t in bash dirname readlink env; do ln -s "$(command -v $t)" ${bare}/$t; done`]);
  assert.equal(tools.status, 0);
  const noNode = run(['check', 'q.graphql'], { cwd, env: { PATH: bare } });
  assert.equal(noNode.status, 2);
  assert.match(noNode.stderr, /needs node, which is not on the PATH: .*setup installs it/);
});

test('a closed pipe: a message, and no stack trace', async () => {
  const many = Array.from({ length: 300 }, (_, i) => `query Q${i} { font(name: "a") { v: name v: glyph(letter: "b") { width } } }`).join('\n');
  const cwd = folderOf({ 'schema.graphql': SCHEMA, 'q.graphql': many });
  const child = spawn(COMMAND, ['check', 'q.graphql'], { cwd, stdio: ['ignore', 'pipe', 'pipe'] });
  let said = '';
  child.stderr.setEncoding('utf8').on('data', (text) => { said += text; });
  child.stdout.destroy();
  const status = await new Promise((resolve) => { child.on('close', resolve); });
  assert.equal(status, 2);
  assert.match(said, /^schema: schema\.graphql\n(checked .*\n)*ponybluster: the output was closed before all of it was written\n$/);
});

test('10,000 files', { timeout: 600_000 }, () => {
  const cwd = folderOf({ 'schema.graphql': SCHEMA, 'fragments/mark.graphql': 'fragment Mark on Glyph { width ...Tone }', 'fragments/tone.graphql': 'fragment Tone on Glyph { pos: anchor(side: ABOVE) { x y } }' });
  for (let i = 0; i < 10_000; i += 1) {
    const extra = i % 1000 === 7 ? 'pos: anchor(side: BELOW) { x }' : '';
    writeFileSync(path.join(cwd, `q${i}.graphql`), `query Q${i}($font: String!) {\n  font(name: $font) {\n    name\n    glyph(letter: "ẹ") { width ${extra} ...Mark }\n  }\n}\n`);
  }
  const { stdout, status } = run(['check', '--sheet', 'out.html', '.'], { cwd });
  assert.match(stdout, /refused: 10 errors in 10,000 queries \(9,990 passed, 10 refused\)\nWith all of this help followed, the proved check passes\.\n/);
  assert.equal(status, 1);
  assert.ok(readFileSync(path.join(cwd, 'out.html')).length < 1_000_000);
});

test('setup says what it needs where it can install nothing, and changes nothing when asked', () => {
  const bare = folderOf({});
  spawnSync('bash', ['-c', `for t in bash dirname env id; do ln -s "$(command -v $t)" ${bare}/$t; done`]);
  const setup = (words, folder) => spawnSync(path.join(DESK, 'setup'), words, { encoding: 'utf8', env: { PATH: folder } });
  const ask = setup(['--ask'], bare);
  assert.deepEqual([ask.status, /missing: nodejs node-graphql/.test(ask.stdout)], [1, true]);
  const install = setup([], bare);
  assert.deepEqual([install.status, /there is no apt-get here/.test(install.stdout)], [1, true]);
  assert.equal(setup(['--what'], process.env.PATH).status, 2);
  assert.equal(setup(['--ask'], process.env.PATH).status, 0);
});
