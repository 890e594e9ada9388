/** Places that several findings show in the same way. */
import { definitionName } from '../names.mjs';
import { definitionSpan, headSpan, spanOf } from '../text.mjs';
import { Kind } from '../graphql.mjs';

/** The name of the definition in a unit that a node stands in. */
export function definitionAt(node, unit) {
  const holds = ({ loc }) => loc.source === node.loc.source && loc.start <= node.loc.start && node.loc.end <= loc.end;
  return definitionName([...unit.operations, ...unit.fragments].find(holds));
}

/** What is shown of a node: of a field or a definition only its head. */
export function shownSpan(node) {
  if (node.kind === Kind.FIELD) return headSpan(node);
  return node.kind === Kind.OPERATION_DEFINITION || node.kind === Kind.FRAGMENT_DEFINITION ? definitionSpan(node) : spanOf(node);
}

/** @returns {import('../finding.mjs').Place} */
export function definitionPlace(node, label) {
  const span = definitionSpan(node);
  return { span, marks: [node.name ? spanOf(node.name) : span], label, inside: definitionName(node) };
}

/** @returns {import('../finding.mjs').Place} */
export function wholePlace(span, label = '', inside = '') {
  return { span, marks: [span], label, inside };
}
