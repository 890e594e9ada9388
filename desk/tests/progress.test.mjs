/** Progress of long runs: silent at first, one line on a terminal, few lines in a file. */
import assert from 'node:assert/strict';
import { test } from 'node:test';
import { progress } from '../src/progress.mjs';

function told(isTTY, times) {
  const out = [];
  let now = 0;
  const far = progress({ isTTY, write: (text) => out.push(text) }, () => now);
  times.forEach((time, i) => {
    now = time;
    far.tell('checked', i + 1, 10_000, 'queries');
  });
  far.end();
  return out;
}

test('a short run says nothing', () => {
  assert.deepEqual(told(true, [0, 100, 999]), []);
});

test('on a terminal one line is written over, and taken away in the end', () => {
  assert.deepEqual(told(true, [0, 1100, 1150, 1300]), ['\r\x1b[Kchecked 2 of 10,000 queries', '\r\x1b[Kchecked 4 of 10,000 queries', '\r\x1b[K']);
});

test('in a file there is a line every ten seconds', () => {
  assert.deepEqual(told(false, [0, 10_000, 12_000, 20_001]), ['checked 2 of 10,000 queries\n', 'checked 4 of 10,000 queries\n']);
});
