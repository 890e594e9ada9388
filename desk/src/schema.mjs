/**
 * The schema, and what does not fit it. A query that does not fit its schema has no image, so the proved check cannot be asked about it.
 * graphql-js's own rules say what does not fit. They need one definition at a time and no other file.
 */
import {
  FieldsOnCorrectTypeRule, FragmentsOnCompositeTypesRule, GraphQLError, Kind, KnownArgumentNamesRule, KnownDirectivesRule, KnownTypeNamesRule,
  NoFragmentCyclesRule, NoUnusedFragmentsRule, NoUnusedVariablesRule, OverlappingFieldsCanBeMergedRule, ScalarLeafsRule, Source,
  UniqueArgumentNamesRule, UniqueInputFieldNamesRule, UniqueVariableNamesRule, VariablesAreInputTypesRule, VariablesInAllowedPositionRule,
  buildASTSchema, parse, specifiedRules, validate, validateSDL, validateSchema,
} from './graphql.mjs';

/** What must hold so that there is an image. */
const FOR_AN_IMAGE = [
  KnownTypeNamesRule, FragmentsOnCompositeTypesRule, FieldsOnCorrectTypeRule, KnownArgumentNamesRule, KnownDirectivesRule, ScalarLeafsRule,
  UniqueArgumentNamesRule, UniqueInputFieldNamesRule,
];

/** What the proved check decides. */
const PROVED = [
  NoFragmentCyclesRule, NoUnusedFragmentsRule, NoUnusedVariablesRule, OverlappingFieldsCanBeMergedRule, UniqueVariableNamesRule,
  VariablesAreInputTypesRule, VariablesInAllowedPositionRule,
];

/**
 * graphql-js's other rules, for --all-rules. VariablesInAllowedPosition is among them too, since the proved check passes over null
 * defaults and over variables inside lists and objects.
 */
const OTHERS = [...specifiedRules.filter((rule) => !FOR_AN_IMAGE.includes(rule) && !PROVED.includes(rule)), VariablesInAllowedPositionRule];

const NO_LIMIT = { maxErrors: Infinity };

/**
 * @param {import('./text.mjs').Text[]} texts  a schema may stand in several files
 * @returns {{schema?: import('graphql').GraphQLSchema, errors: GraphQLError[]}}  a schema, or why there is none
 */
export function readSchema(texts) {
  try {
    const sources = texts.map((text) => new Source(text.body, text.file));
    const document = { kind: Kind.DOCUMENT, definitions: sources.flatMap((source) => parse(source).definitions) };
    const wrong = validateSDL(document);
    if (wrong.length) return { errors: wrong };
    const schema = buildASTSchema(document, { assumeValidSDL: true });
    const errors = validateSchema(schema);
    return errors.length ? { errors: errors.map((error) => placed(error, sources[0])) } : { schema, errors };
  } catch (error) {
    if (error.name !== 'GraphQLError') throw error;
    return { errors: [error] };
  }
}

/** Some errors of a schema have no place, as "there is no query type": they are shown at its start. */
function placed(error, source) {
  return error.nodes?.length ? error : new GraphQLError(error.message, { source, positions: [0] });
}

const known = new WeakMap(); // schema -> document -> errors: a language server asks often about the same

/** @returns {import('graphql').GraphQLError[]} what in a document does not fit the schema */
export function misfits(schema, document) {
  if (!known.has(schema)) known.set(schema, new WeakMap());
  const ofSchema = known.get(schema);
  if (!ofSchema.has(document)) ofSchema.set(document, validate(schema, document, FOR_AN_IMAGE, NO_LIMIT));
  return ofSchema.get(document);
}

/** What graphql-js's other rules say of one unit. */
export function otherErrors(schema, unit) {
  return validate(schema, { kind: Kind.DOCUMENT, definitions: [...unit.operations, ...unit.fragments] }, OTHERS, NO_LIMIT);
}
