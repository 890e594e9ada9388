/** The script ./run and `explain IMAGE`: images and queries. `rt` is replaced by a program that builds nothing, since all is built. */
import assert from 'node:assert/strict';
import { spawnSync } from 'node:child_process';
import { existsSync, writeFileSync } from 'node:fs';
import path from 'node:path';
import { test } from 'node:test';
import { DESK, folderOf, run } from './support/command.mjs';

const ROOT = path.join(DESK, '..');
const isBuilt = ['ponybluster', 'replay'].every((name) => existsSync(path.join(ROOT, 'crates', name, 'out', name)));
const needs = { skip: isBuilt ? false : 'the programs are not built: ./run was not tried' };

/** The environment with an `rt` that does nothing. */
function environment() {
  const folder = folderOf({});
  writeFileSync(path.join(folder, 'rt'), '#!/bin/sh\n', { mode: 0o755 });
  return { ...process.env, PATH: `${folder}:${process.env.PATH}` };
}

const CONFLICT = `16 0 8 3 23
Conflict in operation 0: selection rows 8 and 3 answer to one name, with different arguments.
    row 8: pos: anchor(side: BELOW), in query Primer
    row 3: pos: anchor(side: ABOVE), in fragment Tone
`;

test('./run and explain say the same of an image, from any folder', needs, () => {
  const env = environment();
  const { stdout, status } = spawnSync('./run', ['examples/primer.img'], { cwd: ROOT, env, encoding: 'utf8' });
  assert.deepEqual([stdout, status], [CONFLICT, 0]);
  const explained = run(['explain', 'primer.img'], { cwd: path.join(ROOT, 'examples'), env });
  assert.deepEqual([explained.stdout, explained.status], [CONFLICT, 0]);
});

test('./run shows both fields of a query', needs, () => {
  const { stdout, status } = spawnSync('./run', ['examples/primer.graphql'], { cwd: ROOT, env: environment(), encoding: 'utf8' });
  assert.equal(status, 1);
  assert.match(stdout, /primer\.graphql:6:7 in query Primer[^]*primer\.graphql:18:3 in fragment Tone[^]*= second reached by: Primer → \.\.\.Mark → \.\.\.Tone/);
});
