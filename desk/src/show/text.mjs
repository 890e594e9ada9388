/** Findings for a terminal, as rustc shows them: where, the lines with what is wrong underlined, how it is reached, how to mend it. */
import { displayWidth } from '../width.mjs';
import { excerpt } from './excerpt.mjs';
import { MENDED, facts, summary } from './words.mjs';

const PLAIN = { error: '', warning: '', bold: '', frame: '', dim: '', wrong: '', same: '', passed: '', refused: '', off: '' };
const COLOURS = { error: '\x1b[1;31m', warning: '\x1b[1;33m', bold: '\x1b[1m', frame: '\x1b[1;34m', dim: '\x1b[2m', wrong: '\x1b[1;31m',
  same: '\x1b[1;36m', passed: '\x1b[1;32m', refused: '\x1b[1;31m', off: '\x1b[0m' };
const TAB = '    ';

/**
 * @param {import('../check.mjs').Report} report
 * @param {import('../project.mjs').Project} project
 * @param {{colour?: boolean}} [options]
 */
export function text(report, project, { colour = false } = {}) {
  const look = colour ? COLOURS : PLAIN;
  const { verdict, rest } = summary(report);
  const end = [`${look[verdict]}${verdict}${look.off}: ${rest}`];
  if (report.mended) end.push(MENDED);
  const kinds = [...new Set(report.findings.map(({ kind }) => kind))].filter((kind) => kind !== null);
  if (kinds.length) end.push(`What a number in brackets means: ponybluster explain ${kinds[0]}`);
  return `${[...report.findings.map((finding) => shown(finding, project, look)), end.join('\n')].join('\n\n')}\n`;
}

/** One finding. */
export function shown(finding, project, look = PLAIN) {
  const parts = finding.places.map((place) => excerpt(place, project.text(place.span)));
  const gutter = ' '.repeat(String(Math.max(...parts.map((lines) => lines.at(-1).number))).length);
  const bar = `${gutter} ${look.frame}|${look.off}`;
  const out = [`${look[finding.severity]}${finding.severity}[${finding.kind ?? finding.rule}]${look.off}${look.bold}: ${finding.title}${look.off}`];
  finding.places.forEach((place, i) => {
    const inside = place.inside ? ` ${look.dim}in ${place.inside}${look.off}` : '';
    out.push(`${gutter}${look.frame}${i ? ':::' : '-->'}${look.off} ${project.where(place.span)}${inside}`, bar);
    for (const line of parts[i]) {
      if (!line) out.push(`${look.frame}...${look.off}`);
      else out.push(...numbered(line, line === parts[i].at(-1) ? place.label : '', gutter, bar, look));
    }
    out.push(bar);
  });
  for (const [name, value] of facts(finding)) out.push(`${gutter} ${look.frame}=${look.off} ${look.bold}${name}${look.off}: ${value}`);
  return out.join('\n');
}

/** One line of source, and below it `^^^` under what is wrong, `---` under the name that both fields have, and the label. */
function numbered({ number, line, marks }, label, gutter, bar, look) {
  const source = `${look.frame}${String(number).padStart(gutter.length)} |${look.off} ${spaced(line)}`;
  let below = '';
  let at = 0;
  for (const { from, to, isWrong } of marks) {
    const sign = (isWrong ? '^' : '-').repeat(Math.max(1, width(line.slice(from, to))));
    below += `${' '.repeat(width(line.slice(at, from)))}${isWrong ? look.wrong : look.same}${sign}${look.off}`;
    at = to;
  }
  if (label) below += ` ${look.wrong}${label}${look.off}`;
  return below ? [source, `${bar} ${below}`] : [source];
}

/** A line as a terminal can show it: tabs as spaces, and no other control character. */
function spaced(line) {
  return line.replaceAll('\t', TAB).replace(/[\x00-\x1f\x7f-\x9f]/g, '\ufffd');
}

function width(part) {
  return displayWidth(spaced(part));
}
