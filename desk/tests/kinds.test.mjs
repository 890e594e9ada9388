/** Every kind of answer has its stored message, and each case is answered with its kind by the proved program. */
import assert from 'node:assert/strict';
import { readFileSync } from 'node:fs';
import { after, test } from 'node:test';
import { Engine } from '../src/engine.mjs';
import { BEFORE, KINDS } from '../src/kinds.mjs';
import { text } from '../src/show/text.mjs';
import { CASES, messageFile } from '../stored/cases.mjs';
import { message } from '../stored/message.mjs';
import { checked, kindsOf } from './support/checked.mjs';

const engine = new Engine();
after(() => engine.stop());

for (const one of CASES) {
  test(`the message of ${one.kind}`, async () => {
    const stored = readFileSync(new URL(`../stored/${messageFile(one)}`, import.meta.url), 'utf8');
    assert.equal(await message(one, engine), stored);
    if (one.kind !== 0) assert.match(stored, new RegExp(`^(error|warning)\\[${one.kind}\\]: `));
  });
}

test('there is a case for each kind and for each thing before the check', () => {
  const wanted = [...Array.from({ length: 19 }, (_, i) => i), ...Object.keys(BEFORE).filter((rule) => rule !== 'schema-text')];
  assert.deepEqual(CASES.map(({ kind }) => kind).sort(), wanted.sort());
});

test('every kind has a name, a line and a text', () => {
  assert.deepEqual(Object.keys(KINDS).map(Number), Array.from({ length: 19 }, (_, i) => i));
  assert.equal(new Set(Object.values(KINDS).map(({ name }) => name)).size, 19);
  for (const { short, long } of Object.values(KINDS)) assert.ok(short && long);
});

test('a kind that nobody knows is a fault of the tool', async () => {
  const odd = { ask: async () => ({ kind: 77, operation: 0, a: 7, b: 0, used: 0 }) };
  const { report, project } = await checked('query Q { font(id: 1) { name } }', { engine: odd });
  assert.match(text(report, project), /^error\[77\]: the check gave an answer that this tool does not know[^]*\(its reply: 77 0 7 0 0\)/);
});

test('a query that the program has no room for is refused and not checked', async () => {
  const fields = Array.from({ length: 8200 }, (_, i) => `n${i}: name`).join('\n');
  const { report, project } = await checked(`{ font(id: 1) { ${fields} } }`, { engine });
  assert.deepEqual([kindsOf(report), report.passed, report.queries[0].state], [[18], false, 'not checked']);
  assert.match(text(report, project), /^error\[18\]: the query without a name is too large for the door: packed, it has 295,[^]*could not be checked here either/);
});

test('a budget that the program has no room for is said to be so', async () => {
  const query = `{ font(id: 1) { ${Array.from({ length: 40 }, (_, i) => `a${i}: main { base { name nick size flag } }`).join(' ')} } }`;
  const small = await checked(query, { engine, budget: 300 });
  const [{ help, tried }] = small.report.findings;
  assert.equal(tried, true);
  const needed = Number(/--budget (\d+)/.exec(help)[1]);
  assert.deepEqual(kindsOf((await checked(query, { engine, budget: needed })).report), []);
  assert.deepEqual(kindsOf((await checked(query, { engine, budget: needed - 1 })).report), [17]);
  assert.deepEqual(kindsOf((await checked(query, { engine, budget: 1_000_000 })).report), []);
});

for (const [what, value, said] of [
  ['lists nested over 64 levels', `${'['.repeat(70)}1${']'.repeat(70)}`, /error\[4\]: this goes over a limit of the check \(values, row \d+\)/],
  ['an object with over 256 members', `{${Array.from({ length: 257 }, (_, i) => `k${i}: 1`).join(' ')}}`, /error\[4\]: this goes over a limit of the check \(values, row \d+\)/],
]) {
  test(`${what} are shown where they stand`, async () => {
    const schema = 'scalar Any type Query { a(v: Any): Int }';
    const { report, project } = await checked(`query Q {\n  a(v: ${value})\n}`, { engine, schema });
    assert.match(text(report, project), said);
    assert.equal(project.text(report.findings[0].places[0].span).position(report.findings[0].places[0].span.start).line, 2);
  });
}

test('a query with more types than the image has room for', async () => {
  const many = Array.from({ length: 4100 }, (_, i) => i);
  const schema = `type Query { ${many.map((i) => `f${i}: T${i}`).join(' ')} } ${many.map((i) => `type T${i} { a: Int }`).join(' ')}`;
  const { report, project } = await checked(`query Q { ${many.map((i) => `f${i} { a }`).join(' ')} }`, { engine, schema });
  assert.match(text(report, project), /^error\[(1|18)\]: query Q /);
  assert.equal(report.passed, false);
});

test('after fifty findings in one query it is said that more were not looked for', async () => {
  const { report } = await checked(`{ font(id: 1) { ${Array.from({ length: 60 }, (_, i) => `v${i}: name v${i}: nick`).join(' ')} } }`, { engine, budget: 5000 });
  assert.equal(report.findings.length, 50);
  assert.match(report.findings.at(-1).hints[0], /more were not looked for/);
});
