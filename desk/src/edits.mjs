/** Edits of texts: what a fix changes, and the texts with some fixes made. */
import { Text, spanOf } from './text.mjs';

/** @typedef {{span: import('./text.mjs').Span, text: string}} Edit  this text in place of that span */

/** Takes out a node. If it stands alone on its lines, the lines go too. */
export function removal(node) {
  const { body } = node.loc.source;
  const span = spanOf(node);
  const before = /[^\S\r\n]*$/.exec(body.slice(0, span.start))[0].length;
  const after = /^[^\S\r\n]*/.exec(body.slice(span.end))[0].length;
  const startsLine = span.start === before || /[\r\n]/.test(body[span.start - before - 1]);
  const lineEnd = /^(?:\r\n|\n|\r|$)/.exec(body.slice(span.end + after));
  if (startsLine && lineEnd) return { span: { ...span, start: span.start - before, end: span.end + after + lineEnd[0].length }, text: '' };
  return { span: { ...span, end: span.end + after }, text: '' };
}

/** Takes out one variable of a list in brackets; with the only one the brackets go too. */
export function variableRemoval(node) {
  const { body } = node.loc.source;
  let { start, end } = node.loc;
  const after = /^[\s,]*/.exec(body.slice(end))[0].length;
  if (body[end + after] === ')') start -= /[\s,]*$/.exec(body.slice(0, start))[0].length;
  else end += after;
  const alone = body[start - 1] === '(' && /^\s*\)/.exec(body.slice(end));
  if (alone) return { span: { file: node.loc.source.name, start: start - 1, end: end + alone[0].length }, text: '' };
  return { span: { file: node.loc.source.name, start, end }, text: '' };
}

/**
 * The texts that change, with these edits made. Of two edits that overlap the first one counts, unless the second one holds it.
 * @returns {Map<string, Text>} by file
 */
export function editedTexts(edits, texts) {
  const byFile = new Map();
  for (const edit of edits) {
    const others = (byFile.get(edit.span.file) ?? []).filter(({ span }) => !holds(edit.span, span));
    if (others.some(({ span }) => overlap(span, edit.span))) continue;
    byFile.set(edit.span.file, [...others, edit]);
  }
  return new Map([...byFile].map(([file, list]) => [file, new Text(file, edited(texts.get(file).body, list))]));
}

function overlap(x, y) {
  return (x.start < y.end && y.start < x.end) || (x.start === y.start && x.end === y.end);
}

function holds(x, y) {
  return overlap(x, y) && x.start <= y.start && y.end <= x.end && x.end - x.start > y.end - y.start;
}

/** From the last edit to the first, so that the offsets of those before stay right. */
function edited(body, edits) {
  const backwards = [...edits].sort((x, y) => y.span.start - x.span.start || y.span.end - x.span.end);
  return backwards.reduce((out, { span, text }) => out.slice(0, span.start) + text + out.slice(span.end), body);
}
