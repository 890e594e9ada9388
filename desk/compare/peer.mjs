/** Which kinds graphql-js's own rules stand for on a document. */
import * as graphql from '../src/graphql.mjs';

const RULES = {
  5: graphql.NoFragmentCyclesRule, 9: graphql.NoUnusedFragmentsRule, 10: graphql.VariablesAreInputTypesRule, 11: graphql.UniqueVariableNamesRule,
  12: graphql.NoUnusedVariablesRule, 13: graphql.VariablesInAllowedPositionRule,
};
const REASONS = { 'conflicting types': 14, 'are different fields': 15, 'differing arguments': 16 };

/** @returns {number[]} */
export function peerKinds(schema, document) {
  const said = new Set();
  for (const [kind, rule] of Object.entries(RULES)) if (graphql.validate(schema, document, [rule]).length) said.add(Number(kind));
  for (const { message } of graphql.validate(schema, document, [graphql.OverlappingFieldsCanBeMergedRule])) {
    for (const [words, kind] of Object.entries(REASONS)) if (message.includes(words)) said.add(kind);
  }
  return [...said].sort((x, y) => x - y);
}
