/** The only place that loads graphql-js: a copy installed beside this project, else Debian's package node-graphql. */
import { createRequire } from 'node:module';

const require = createRequire(import.meta.url);
const PLACES = ['graphql', '/usr/share/nodejs/graphql'];

function load() {
  for (const place of PLACES) {
    try {
      return { all: require(place), ...require(`${place}/validation/validate`) }; // validateSDL is not in the index
    } catch (error) {
      if (error.code !== 'MODULE_NOT_FOUND') throw error;
    }
  }
  throw Object.assign(new Error('graphql-js is not installed: desk/setup installs it (the package node-graphql)'), { code: 'MISSING_GRAPHQL' });
}

const { all, validateSDL: validateDefinitions } = load();

export const validateSDL = validateDefinitions;

/** What this project uses of graphql-js. */
export const {
  GraphQLError, GraphQLNonNull, GraphQLString, Kind, SchemaMetaFieldDef, Source, TypeMetaFieldDef, buildASTSchema, getNamedType,
  getNullableType, isCompositeType, isEnumType, isInputObjectType, isInputType, isInterfaceType, isLeafType, isListType, isNonNullType,
  isObjectType, isUnionType, parse, parseType, print, specifiedRules, typeFromAST, validate, validateSchema, version,
  FieldsOnCorrectTypeRule, FragmentsOnCompositeTypesRule, KnownArgumentNamesRule, KnownDirectivesRule, KnownTypeNamesRule,
  ScalarLeafsRule, UniqueArgumentNamesRule, UniqueInputFieldNamesRule,
  NoFragmentCyclesRule, NoUnusedFragmentsRule, NoUnusedVariablesRule, OverlappingFieldsCanBeMergedRule, UniqueVariableNamesRule,
  VariablesAreInputTypesRule, VariablesInAllowedPositionRule,
} = all;
