/** What the documents show is what the command writes. */
import assert from 'node:assert/strict';
import { readFileSync } from 'node:fs';
import path from 'node:path';
import { test } from 'node:test';
import { DESK, run } from './support/command.mjs';

const ROOT = path.join(DESK, '..');
const read = (file) => readFileSync(path.join(ROOT, file), 'utf8');

test('README.md and docs/DESK.md show the answer to the primer as it is', () => {
  const { stdout } = run(['check', 'examples/primer.graphql'], { cwd: ROOT });
  const [finding] = stdout.split('\n\n');
  assert.ok(read('README.md').includes(`\n${finding}\n`), finding);
  assert.ok(read('docs/DESK.md').includes(`\n${stdout}`), stdout);
});

test('docs/DESK.md names every option and no other', () => {
  const options = new Set(run(['--help']).stdout.match(/(?<![-\w])--[a-z][a-z-]*/g));
  const named = new Set(read('docs/DESK.md').match(/(?<![-\w])--[a-z][a-z-]*/g));
  for (const option of options) assert.ok(named.has(option), option);
  for (const option of named) assert.ok(options.has(option) || option === '--docs', option);
});
