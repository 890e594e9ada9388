/** The lines of a place, and what is marked in each: the name that two fields share, and what is wrong. */

const MOST_LINES = 8;
const WIDEST = 160; // characters of a line; of a longer one a part is shown
const BEFORE = 40; // characters of that part before its first mark

/**
 * @typedef {object} Line
 * @property {number} number
 * @property {string} line
 * @property {{from: number, to: number, isWrong: boolean}[]} marks  columns from 0, in order, none of them overlapping
 */

/**
 * @param {import('../finding.mjs').Place} place
 * @param {import('../text.mjs').Text} text
 * @returns {(Line | undefined)[]}  undefined stands for lines that are left out
 */
export function excerpt({ marks, name }, text) {
  const signs = marks.map((mark) => ({ ...mark, isWrong: true }));
  if (name && !marks.some(({ start }) => start === name.start)) signs.push({ ...name, isWrong: false });
  signs.sort((x, y) => x.start - y.start);
  const first = text.position(signs[0].start).line;
  const last = text.position(Math.max(...signs.map(({ start, end }) => Math.max(start, end - 1)))).line;
  const out = [];
  for (let number = first; number <= last; number += 1) {
    if (number - first === MOST_LINES - 1 && last - number > 0) {
      out.push(undefined);
      number = last;
    }
    const line = text.line(number);
    out.push({ number, ...part(line, marksIn(line, text.starts[number - 1], signs)) });
  }
  return out;
}

/** The marks of one line; a mark that began in a line before starts at the first letter of this one. */
function marksIn(line, start, signs) {
  const indent = line.length - line.trimStart().length;
  const out = [];
  let at = 0;
  for (const sign of signs) {
    const from = Math.max(sign.start - start, at, sign.start < start ? indent : 0);
    const isPoint = line.length <= from && sign.start - start === from; // the end of the line is what is wrong
    const to = isPoint ? from + 1 : Math.min(sign.end - start, line.length);
    if (to <= from) continue;
    out.push({ from, to, isWrong: sign.isWrong });
    at = to;
  }
  return out;
}

/** A line, or of a very long one the part around its first mark. */
function part(line, marks) {
  if (line.length <= WIDEST) return { line, marks };
  const start = Math.max(0, Math.min((marks[0]?.from ?? 0) - BEFORE, line.length - WIDEST));
  const end = start + WIDEST;
  const lead = start ? '.. ' : '';
  const shift = lead.length - start;
  const inside = marks.filter(({ from }) => from < end).map((mark) => ({ ...mark, from: mark.from + shift, to: Math.min(mark.to, end) + shift }));
  return { line: lead + line.slice(start, end) + (end < line.length ? ' ..' : ''), marks: inside };
}
