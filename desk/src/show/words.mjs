/** Words that more than one form of output uses: the lines below an excerpt, and the summary. */
import { written } from '../findings/conflict.mjs';

/** @returns {[string, string][]} name and text of each fact of a finding */
export function facts(finding) {
  const out = [];
  if (finding.path.length) out.push(['path', finding.path.join('.')]);
  const names = ['first reached by', 'second reached by'];
  finding.places.forEach(({ reached }, i) => reached && out.push([names[i], way(reached)]));
  if (finding.kind === 16) {
    for (const { what, first, second, remark } of finding.differences) {
      out.push(['differs', `${written(what, first)} against ${written(what, second)}${remark ? ` (${remark})` : ''}`]);
    }
  }
  if (finding.operations.length > 1) out.push(['also in', someOf(finding.operations.slice(1))]);
  out.push(['note', finding.sentence]);
  for (const hint of finding.hints) out.push(['hint', hint]);
  if (finding.tried) out.push(['help', finding.help]);
  return out;
}

/** The operation and the spreads that lead to a field, in one line. */
export function way(reached) {
  return reached.map(({ text }) => text).join(' → ');
}

function someOf(names) {
  return names.length > 10 ? `${names.slice(0, 10).join(', ')} and ${names.length - 10} more` : names.join(', ');
}

export function count(n, one, many = `${one}s`) {
  return `${n.toLocaleString('en')} ${n === 1 ? one : many}`;
}

/** What was checked and what came out: a verdict in one word, and the rest of the sentence. */
export function summary({ passed, findings, queries }) {
  const all = count(queries.length, 'query', 'queries');
  if (passed) return { verdict: 'passed', rest: `${all}, and each name in the answers stands for one thing` };
  const errors = findings.filter(({ severity }) => severity === 'error').length;
  const states = ['passed', 'refused', 'not checked'].map((state) => [queries.filter((query) => query.state === state).length, state]);
  if (!queries.length) return { verdict: 'refused', rest: `${count(errors, 'error')}, and no query was checked` };
  const parts = states.filter(([n]) => n).map(([n, state]) => `${n.toLocaleString('en')} ${state}`);
  return { verdict: 'refused', rest: `${count(errors, 'error')} in ${all} (${parts.join(', ')})` };
}

export const MENDED = 'With all of this help followed, the proved check passes.';
