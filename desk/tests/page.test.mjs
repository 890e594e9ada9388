/** The page for a designer: its text, and the page itself in headless Chromium. */
import assert from 'node:assert/strict';
import { readFileSync, writeFileSync } from 'node:fs';
import path from 'node:path';
import { test } from 'node:test';
import { Browser, findChromium } from './support/browser.mjs';
import { EXAMPLE, folderOf, run } from './support/command.mjs';

const chromium = findChromium();
const inBrowser = { skip: chromium ? false : 'there is no chromium on the PATH: the page was not opened', timeout: 120_000 };
const folder = folderOf({});

function pageOf(name, words, cwd = EXAMPLE) {
  const file = path.join(folder, name);
  const { status, stderr } = run(['check', '--sheet', file, ...words], { cwd });
  assert.ok(status < 2, stderr);
  return file;
}

/** Opens pages in one browser, for one test. */
async function withBrowser(work) {
  const browser = new Browser(chromium);
  try {
    await work(browser);
  } finally {
    await browser.close();
  }
}

test('the page stands alone, and escapes what it shows', () => {
  const cwd = folderOf({ 'schema.graphql': readFileSync(path.join(EXAMPLE, 'schema.graphql')),
    'q.graphql': 'query Q($f: String!) { font(name: $f) { a: glyph(letter: "<b>&") { width } a: glyph(letter: "x") { width } } }' });
  const page = readFileSync(pageOf('escaped.html', ['q.graphql'], cwd), 'utf8');
  assert.match(page, /&lt;b&gt;&amp;/);
  assert.doesNotMatch(page, /<b>|<script|https?:|url\(|@import/);
});

test('both fields are visible, with what differs, path, types and ways; and the console is silent', inBrowser, () => withBrowser(async (browser) => {
  const page = await browser.open(pageOf('primer.html', []));
  const seen = await page.value(`[...document.querySelectorAll('section.card')].map((card) => {
    const box = card.getBoundingClientRect();
    return { shown: box.width > 100 && box.height > 100 && card.checkVisibility(), top: box.top, left: box.left, text: card.innerText,
      large: parseFloat(getComputedStyle(card.querySelector('.specimen dd')).fontSize) };
  })`);
  assert.equal(seen.length, 2);
  assert.ok(seen.every(({ shown, large }) => shown && large > 30));
  assert.ok(seen[0].top === seen[1].top && seen[0].left < seen[1].left, 'side by side');
  for (const part of ['BELOW', 'queries/primer.graphql:6:7', 'query Primer', 'Glyph.anchor', 'Point']) assert.ok(seen[0].text.includes(part), part);
  for (const part of ['ABOVE', 'fragments/tone.graphql:2:3', 'fragment Tone', '...Mark', '...Tone']) assert.ok(seen[1].text.includes(part), part);
  assert.deepEqual(await page.value(`[...document.querySelectorAll('nav li')].map((one) => one.innerText)`), ['query Primer', 'font', 'glyph', 'pos']);
  assert.deepEqual(page.errors, []);
}));

test('light and dark differ; a narrow window has one column and no sideways scrolling', inBrowser, () => withBrowser(async (browser) => {
  const file = pageOf('looks.html', []);
  const paper = async (look) => (await browser.open(file, look)).value('getComputedStyle(document.body).backgroundColor');
  assert.notEqual(await paper({ scheme: 'light' }), await paper({ scheme: 'dark' }));
  const narrow = await browser.open(file, { width: 360 });
  const [first, second] = await narrow.value(`[...document.querySelectorAll('section.card')].map((card) => card.getBoundingClientRect().top)`);
  assert.ok(first < second);
  assert.equal(await narrow.value('document.documentElement.scrollWidth'), 360);
}));

test('on A4 the primer takes one page', inBrowser, () => withBrowser(async (browser) => {
  const pdf = (await (await browser.open(pageOf('print.html', []))).print()).toString('latin1');
  assert.equal(pdf.match(/\/Type\s*\/Page\b(?!s)/g).length, 1);
  assert.match(pdf, /\/MediaBox \[0 0 59[45][.\d]* 84[12][.\d]*\]/);
}));

test('a screen reader finds the headings, the place in the answer, both fields and the table', inBrowser, () => withBrowser(async (browser) => {
  const page = await browser.open(pageOf('tree.html', []));
  const { nodes } = await page.send('Accessibility.getFullAXTree');
  const roles = nodes.filter(({ ignored }) => !ignored).map(({ role, name }) => `${role.value}: ${name?.value ?? ''}`);
  for (const wanted of ['heading: One name stands for two things', 'heading: Two fields are stored as pos, with different arguments',
    'navigation: Place in the answer', 'heading: The first field', 'heading: The second field', 'mark: ', 'table: Queries', 'columnheader: Answer']) {
    assert.ok(roles.some((one) => one.startsWith(wanted)), `${wanted}\n${roles.join('\n')}`);
  }
}));

test('a page that complains is noticed', inBrowser, () => withBrowser(async (browser) => {
  const file = path.join(folder, 'bad.html');
  writeFileSync(file, '<!doctype html><meta charset="utf-8"><img src="nowhere.png"><script>console.error("no"); throw new Error("bad")</script>');
  const { errors } = await browser.open(file);
  assert.equal(errors.length, 3);
}));
