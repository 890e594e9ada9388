/** One page for a designer: each conflict with its two fields side by side. The page is one file: no script, nothing from a network. */
import { readFileSync } from 'node:fs';
import { isConflict } from '../kinds.mjs';
import { excerpt } from './excerpt.mjs';
import { capital, escape, inline } from './html.mjs';
import { MENDED, count, summary } from './words.mjs';

const TRIED = 'This was tried: with all its help followed, the text passes the proved check.';
const STYLE = readFileSync(new URL('./sheet.css', import.meta.url), 'utf8');
const LONG = 14; // characters of a value; a longer one is set smaller
const MOST_ROWS = 200; // of the table of queries
const MOST_FINDINGS = 500; // on one page

/** @param {import('../check.mjs').Report} report @param {import('../project.mjs').Project} project */
export function sheet(report, project) {
  const { verdict, rest } = summary(report);
  const title = report.passed ? 'Nothing is wrong' : headline(report);
  return `<!doctype html>
<html lang="en">
<head>
<meta charset="utf-8">
<meta name="viewport" content="width=device-width, initial-scale=1">
<meta http-equiv="Content-Security-Policy" content="default-src 'none'; style-src 'unsafe-inline'">
<title>${escape(title)}</title>
<style>
${STYLE}</style>
</head>
<body>
<main>
<h1>${escape(title)}</h1>
<p class="verdict"><strong class="${verdict}">${capital(verdict)}</strong>: ${escape(rest)}.${report.mended ? ` ${escape(MENDED)}` : ''}</p>
${report.findings.slice(0, MOST_FINDINGS).map((finding, i) => article(finding, i + 1, project)).join('\n')}
${report.findings.length > MOST_FINDINGS ? `<p>And ${count(report.findings.length - MOST_FINDINGS, 'more finding')}: the command shows all of them.</p>` : ''}
${queries(report)}
</main>
<footer><p>Each finding with a kind is an answer of the proved check. Lines and columns count from 1.</p></footer>
</body>
</html>
`;
}

/** The page's title: how many names stand for two things, where nothing else is wrong. */
function headline({ findings }) {
  const errors = findings.filter(({ severity }) => severity === 'error');
  if (!errors.length) return 'Some queries were not checked';
  if (errors.length === 1 && isConflict(errors[0])) return 'One name stands for two things';
  if (errors.every(isConflict)) return `${count(errors.length, 'name')} stand for two things each`;
  return `${count(errors.length, 'thing')} to mend`;
}

function article(finding, number, project) {
  const code = finding.kind === null ? finding.rule : `kind ${finding.kind}`;
  const remarks = isConflict(finding) && finding.kind !== 14 ? finding.differences.filter(({ remark }) => remark) : [];
  return `<article aria-labelledby="finding-${number}">
<p class="kind ${finding.severity}">${number} · ${escape(finding.severity)} · ${escape(code)}</p>
<h2 id="finding-${number}">${inline(capital(finding.title))}</h2>
${finding.path.length ? breadcrumbs(finding) : ''}
<div class="cards">
${finding.places.map((place, i) => card(place, i, finding, project)).join('\n')}
</div>
${remarks.map(({ what, remark }) => `<p class="remark"><code translate="no">${escape(what)}</code>: ${inline(remark)}.</p>`).join('\n')}
<p class="why">${inline(finding.sentence)}</p>
${finding.hints.map((hint) => `<p class="hint">${inline(capital(hint))}${/[?.]$/.test(hint) ? '' : '.'}</p>`).join('\n')}
${finding.tried ? `<p class="help"><strong>How to mend it:</strong> ${inline(finding.help)}. <span class="tried">${TRIED}</span></p>` : ''}
</article>`;
}

/** Where in the answer the two fields are stored. */
function breadcrumbs(finding) {
  const [operation, ...more] = finding.operations;
  const others = more.length > 5 ? `${more.length} other queries` : more.join(', ');
  const also = more.length ? ` <span class="small">(also in ${escape(others)})</span>` : '';
  const names = finding.path.map((name, i) => `<li translate="no"${i === finding.path.length - 1 ? ' class="last"' : ''}>${escape(name)}</li>`);
  return `<nav aria-label="Place in the answer"><ol class="path"><li class="start">${escape(operation)}${also}</li>${names.join('')}</ol></nav>`;
}

function card(place, i, finding, project) {
  const heading = isConflict(finding) ? ['The first field', 'The second field'][i] : capital(place.label) || 'Here';
  const facts = [
    place.inside && ['In', escape(place.inside)],
    place.coordinate && ['Field', `<code>${escape(place.coordinate)}</code>`],
    place.type && ['Type', `<code>${escape(place.type)}</code>`],
    place.reached && ['Reached by', place.reached.map(({ text }) => `<code>${escape(text)}</code>`).join(' <span aria-label="then">→</span> ')],
  ].filter(Boolean);
  return `<section class="card n${i % 2}">
<header><h3>${inline(heading)}</h3><span class="file">${escape(project.where(place.span))}</span></header>
${isConflict(finding) ? specimen(finding, i) : ''}
<pre translate="no"><code>${lines(place, project.text(place.span))}</code></pre>
${facts.length ? `<dl class="facts">${facts.map(([name, value]) => `<div><dt>${name}</dt><dd>${value}</dd></div>`).join('')}</dl>` : ''}
</section>`;
}

/** What differs, in large type. Two values that look the same have their characters' numbers below them. */
function specimen(finding, side) {
  return `<dl class="specimen">${finding.differences.map((one) => {
    const value = side ? one.second : one.first;
    const look = value === null ? 'none' : value.length > LONG ? 'long' : '';
    const codes = one.codes ? ` <small>${escape(one.codes[side])}</small>` : '';
    const shown = value === null ? 'left out' : escape(value);
    return `<div><dt>${escape(one.what)}</dt><dd${look && ` class="${look}"`} translate="no">${shown}${codes}</dd></div>`;
  }).join('')}</dl>`;
}

/** The source lines of a place without their common indent, with what differs marked. */
function lines(place, text) {
  const shown = excerpt(place, text);
  const indent = Math.min(...shown.filter(Boolean).map(({ line }) => line.length - line.trimStart().length));
  return shown.map((line) => (line ? `<span class="number">${line.number}</span> ${marked(line, indent)}` : '..')).join('\n');
}

function marked({ line, marks }, indent) {
  let at = indent;
  let out = '';
  for (const { from, to, isWrong } of marks) {
    const part = escape(line.slice(from, to)) || ' ';
    out += `${escape(line.slice(at, from))}${isWrong ? `<mark>${part}</mark>` : `<span class="same">${part}</span>`}`;
    at = to;
  }
  return out + escape(line.slice(at));
}

/** A row for each query; where there are many, only for those that did not pass. */
function queries({ queries: all }) {
  if (!all.length) return '';
  const notPassed = all.filter(({ state }) => state !== 'passed');
  const shown = (all.length > MOST_ROWS ? notPassed : all).slice(0, MOST_ROWS);
  const left = all.length - shown.length;
  const row = ({ name, file, state, used, words }) => `<tr><th scope="row">${escape(name)}</th><td class="file">${escape(file)}</td>`
    + `<td class="${state === 'passed' ? 'passed' : 'refused'}">${state}</td><td class="count">${used.toLocaleString('en')}</td>`
    + `<td class="count">${words.toLocaleString('en')}</td></tr>`;
  return `<table><caption>Queries</caption><thead><tr><th scope="col">Query</th><th scope="col">File</th><th scope="col">Answer</th>`
    + `<th scope="col" class="count">Units of work</th><th scope="col" class="count">Words packed</th></tr></thead>`
    + `<tbody>${shown.map(row).join('\n')}</tbody></table>${left ? `<p class="small">And ${count(left, 'more query', 'more queries')}.</p>` : ''}`;
}
