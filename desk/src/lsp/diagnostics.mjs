/** Findings as an editor wants them: a diagnostic at each place, the other places as related information, and the fix as an edit. */
import path from 'node:path';
import { pathToFileURL } from 'node:url';
import { isConflict } from '../kinds.mjs';
import { way } from '../show/words.mjs';

const SEVERITY = { error: 1, warning: 2 };

/**
 * @param {import('../finding.mjs').Finding} finding
 * @param {import('../project.mjs').Project} project
 * @returns {{uri: string, diagnostic: object, action?: object}[]}  a conflict is shown at both fields
 */
export function diagnosticsOf(finding, project) {
  return finding.places.slice(0, isConflict(finding) ? 2 : 1).map((place, i) => {
    const diagnostic = diagnosticAt(finding, i, project);
    return { uri: uriOf(place.span.file), diagnostic, action: finding.tried && finding.fix ? actionOf(finding, diagnostic, project) : undefined };
  });
}

function diagnosticAt(finding, at, project) {
  const { label, span } = finding.places[at];
  const path = finding.path.length ? [`In the answer: ${finding.path.join('.')}.`] : [];
  const help = finding.tried ? [`Help: ${finding.help}.`] : [];
  return {
    range: rangeOf(span, project),
    severity: SEVERITY[finding.severity],
    source: 'ponybluster',
    code: finding.rule,
    message: [`${finding.title}${label ? `: ${label}` : ''}.`, ...path, finding.sentence, ...finding.hints, ...help].join('\n'),
    relatedInformation: finding.places.filter((_, i) => i !== at).map((place) => ({
      location: { uri: uriOf(place.span.file), range: rangeOf(place.span, project) },
      message: [place.label || 'and here', place.reached?.length > 1 ? `(${way(place.reached)})` : ''].join(' ').trim(),
    })),
  };
}

function actionOf({ fix }, diagnostic, project) {
  const changes = {};
  for (const { span, text } of fix.edits) (changes[uriOf(span.file)] ??= []).push({ range: rangeOf(span, project), newText: text });
  return { title: fix.label, kind: 'quickfix', diagnostics: [diagnostic], isPreferred: true, edit: { changes } };
}

export function uriOf(file) {
  return pathToFileURL(path.resolve(file)).href;
}

/** Lines and columns count from 0 here. */
function rangeOf(span, project) {
  const text = project.text(span);
  const at = (offset) => {
    const { line, column } = text.position(offset);
    return { line: line - 1, character: column - 1 };
  };
  return { start: at(span.start), end: at(span.end) };
}

/** Whether two ranges touch. */
export function touch(x, y) {
  return notAfter(x.start, y.end) && notAfter(y.start, x.end);
}

function notAfter(x, y) {
  return x.line < y.line || (x.line === y.line && x.character <= y.character);
}
