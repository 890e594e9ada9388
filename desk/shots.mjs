#!/usr/bin/env node
/**
 * Makes pictures of a page in headless Chromium: light, dark, a narrow window, and A4 as PDF.
 *
 *   node desk/shots.mjs PAGE.html OUT        writes OUT-light.png, OUT-dark.png, OUT-narrow.png and OUT.pdf
 *   node desk/shots.mjs --docs               writes the two pictures of docs/, from examples/primer.graphql
 */
import { spawnSync } from 'node:child_process';
import { mkdtempSync, rmSync, writeFileSync } from 'node:fs';
import { tmpdir } from 'node:os';
import path from 'node:path';
import { fileURLToPath } from 'node:url';
import { Browser, findChromium } from './tests/support/browser.mjs';

const ROOT = fileURLToPath(new URL('..', import.meta.url));
const LOOKS = { light: { scheme: 'light' }, dark: { scheme: 'dark' }, narrow: { width: 390, height: 800 } };

async function pictures(browser, page, looks) {
  for (const [file, look] of looks) {
    const open = await browser.open(page, { height: 400, ...look });
    writeFileSync(file, await open.picture());
    console.log(file);
  }
}

/** The page of examples/primer.graphql; where it is written. */
function primerPage(folder) {
  const page = path.join(folder, 'primer.html');
  const words = ['check', 'examples/primer.graphql', '--sheet', page];
  const { status } = spawnSync(path.join(ROOT, 'desk/ponybluster'), words, { cwd: ROOT, stdio: 'ignore' });
  if (status !== 1) throw new Error(`the check of the primer ended with ${status} in place of 1`);
  return page;
}

const [first, out] = process.argv.slice(2);
const program = findChromium();
if (!first || !program) {
  console.error(program ? 'usage: shots.mjs PAGE.html OUT, or shots.mjs --docs' : 'shots.mjs: there is no chromium on the PATH');
  process.exit(2);
}
const browser = new Browser(program);
const folder = mkdtempSync(path.join(tmpdir(), 'desk-shots-'));
try {
  if (first === '--docs') {
    const looks = ['light', 'dark'].map((name) => [path.join(ROOT, `docs/primer-${name}.png`), { ...LOOKS[name], width: 1000 }]);
    await pictures(browser, primerPage(folder), looks);
  } else {
    await pictures(browser, first, Object.entries(LOOKS).map(([name, look]) => [`${out}-${name}.png`, look]));
    writeFileSync(`${out}.pdf`, await (await browser.open(first)).print());
    console.log(`${out}.pdf`);
  }
} finally {
  await browser.close();
  rmSync(folder, { recursive: true });
}
