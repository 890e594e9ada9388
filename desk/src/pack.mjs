/**
 * Packs a unit into an image of edition 1, and keeps for each row the node it came from.
 *
 * Names and atoms get numbers, so that two numbers are the same exactly where the texts are: names, ints and floats as written, strings by
 * value. Sets are numbered operations first, then fragments, then level by level. Arguments stand in this order: directives of operations,
 * directives of fragments, then selection by selection, its own arguments before those of its directives.
 */
import {
  GraphQLNonNull, GraphQLString, Kind, SchemaMetaFieldDef, TypeMetaFieldDef, getNamedType, getNullableType, isCompositeType, isEnumType,
  isInputObjectType, isInterfaceType, isLeafType, isListType, isNonNullType, isObjectType, isUnionType, parseType, typeFromAST,
} from './graphql.mjs';
import { NONE, REFERENCE, SELECTION, TYPE, VALUE, words } from './image.mjs';

/** The unit has no image: it does not fit the schema, or something that it names is missing. */
export class PackError extends Error {
  constructor(message, node) {
    super(message);
    this.node = node;
  }
}

/**
 * @typedef {Map<object, string | true>} Mended  nodes that count as mended already: a variable, fragment or spread is left out (true),
 *   a variable has this type, or a field has this response name (a string)
 *
 * @typedef {object} Packed  the image, and where each row came from
 * @property {Uint32Array} words
 * @property {object[]} operations
 * @property {object[]} fragments
 * @property {{parent: object, owner: object, definition: object, first: number, count: number}[]} sets
 * @property {{node: object, set: number, parent: object, type?: object, own?: number, response?: string}[]} selections  `own`: the set below
 * @property {{node: object, type: object}[]} arguments
 * @property {object[]} values
 * @property {{node: object, type: object}[]} variables
 */

/**
 * @param {import('graphql').GraphQLSchema} schema
 * @param {{operations: object[], fragments: object[]}} unit
 * @param {(spread: object) => object | undefined} target  the fragment that a spread means
 * @param {Mended} [mended]
 * @returns {Packed}
 */
export function pack(schema, unit, target, mended = new Map()) {
  return new Packer(schema, unit, target, mended).pack();
}

class Packer {
  constructor(schema, unit, target, mended) {
    Object.assign(this, { schema, target, mended });
    this.operations = unit.operations;
    this.fragments = unit.fragments.filter((node) => !mended.has(node));
    this.fragmentRow = new Map(this.fragments.map((node, row) => [node, row]));
    this.types = new Map(); // the types that the image needs, by name
    this.references = []; // [kind, row of the child or name of the type]
    this.referenceRow = new Map();
    this.sets = [];
    this.selections = [];
    this.arguments = [];
    this.variables = [];
    this.numbers = new Map();
  }

  pack() {
    const operationRows = this.operations.map((node) => this.takeOperation(node));
    const fragmentRows = this.fragments.map((node) => this.takeFragment(node));
    for (let set = 0; set < this.sets.length; set += 1) this.takeSet(set); // a set may add further sets
    return this.finish(operationRows, fragmentRows);
  }

  // Definitions

  takeOperation(node) {
    const first = this.variables.length;
    for (const variable of node.variableDefinitions ?? []) {
      const mended = this.mended.get(variable);
      if (mended === true) continue;
      const type = typeFromAST(this.schema, mended ? parseType(mended) : variable.type);
      if (!type) throw new PackError('The schema does not have this type.', variable.type);
      this.variables.push({ node: variable, type, row: [this.reference(type), variable.defaultValue ? 1 : 0] });
    }
    const root = this.schema.getRootType(node.operation);
    if (!root) throw new PackError(`The schema has no ${node.operation} type.`, node);
    this.addSet(root, node, node);
    return [first, this.variables.length - first, ...this.takeDirectives(node)];
  }

  takeFragment(node) {
    this.addSet(this.conditionType(node, null), node, node);
    return this.takeDirectives(node);
  }

  conditionType(node, parent) {
    if (!node.typeCondition) return parent;
    const type = this.schema.getType(node.typeCondition.name.value);
    if (!isCompositeType(type)) throw new PackError('A fragment is on an object, an interface or a union.', node.typeCondition);
    return type;
  }

  // Sets and selections

  addSet(parent, owner, definition) {
    this.sets.push({ parent, owner, definition, first: 0, count: 0 });
    return this.sets.length - 1;
  }

  takeSet(number) {
    const set = this.sets[number];
    this.typeName(set.parent);
    set.first = this.selections.length;
    for (const node of set.owner.selectionSet.selections) {
      if (this.isLeftOut(node)) continue;
      this.selections.push({ node, set: number, parent: set.parent, ...this.takeSelection(set, node) });
    }
    set.count = this.selections.length - set.first;
  }

  isLeftOut(node) {
    return node.kind === Kind.FRAGMENT_SPREAD && (this.mended.has(node) || this.mended.has(this.target(node)));
  }

  takeSelection({ parent, definition }, node) {
    if (node.kind === Kind.FIELD) return this.takeField(parent, definition, node);
    if (node.kind === Kind.FRAGMENT_SPREAD) return this.takeSpread(node);
    const own = this.addSet(this.conditionType(node, parent), node, definition);
    return { own, row: [SELECTION.inline, 0, 0, 0, 0, 0, own, ...this.takeDirectives(node)] };
  }

  takeSpread(node) {
    const target = this.fragmentRow.get(this.target(node));
    if (target === undefined) throw new PackError(`There is no fragment ${node.name.value}.`, node);
    return { own: this.operations.length + target, row: [SELECTION.spread, 0, 0, 0, 0, 0, target, ...this.takeDirectives(node)] };
  }

  takeField(parent, definition, node) {
    const { type, args } = this.fieldDefinition(parent, node);
    const named = getNamedType(type);
    if (isLeafType(named) && node.selectionSet) throw new PackError(`A field of type ${named.name} has no fields below it.`, node);
    const mended = this.mended.get(node);
    const response = mended ?? (node.alias ?? node.name).value;
    const given = this.takeArguments(node.arguments ?? [], args);
    const own = node.selectionSet ? this.addSet(named, node, definition) : undefined;
    const row = [SELECTION.field, `name ${response}`, `name ${node.name.value}`, this.reference(type), ...given, own ?? NONE];
    return { type, own, response, row: [...row, ...this.takeDirectives(node)] };
  }

  fieldDefinition(parent, node) {
    const name = node.name.value;
    if (name === '__typename') return { type: new GraphQLNonNull(GraphQLString), args: [] };
    if (parent === this.schema.getQueryType()) {
      if (name === '__schema') return SchemaMetaFieldDef;
      if (name === '__type') return TypeMetaFieldDef;
    }
    const field = isUnionType(parent) ? undefined : parent.getFields()[name];
    if (!field) throw new PackError(`The type ${parent.name} has no field ${name}.`, node);
    return field;
  }

  // Arguments

  takeArguments(nodes, definitions) {
    const first = this.arguments.length;
    for (const node of nodes) {
      const definition = definitions.find(({ name }) => name === node.name.value);
      if (!definition) throw new PackError(`There is no argument ${node.name.value} here.`, node);
      const { type, defaultValue } = definition;
      this.arguments.push({ node, type, row: [this.reference(type), defaultValue === undefined ? 0 : 1] });
    }
    return [first, this.arguments.length - first];
  }

  takeDirectives(node) {
    const first = this.arguments.length;
    for (const directive of node.directives ?? []) {
      const definition = this.schema.getDirective(directive.name.value);
      if (!definition) throw new PackError(`The schema has no directive @${directive.name.value}.`, directive);
      this.takeArguments(directive.arguments ?? [], definition.args);
    }
    return [first, this.arguments.length - first];
  }

  // Types

  typeName(type) {
    this.types.set(type.name, type);
    return type.name;
  }

  reference(type) {
    const nonNull = isNonNullType(type) ? 1 : 0;
    const inner = getNullableType(type);
    const [kind, child] = isListType(inner)
      ? [REFERENCE.list + nonNull, this.reference(inner.ofType)]
      : [REFERENCE.named + nonNull, this.typeName(inner)];
    const key = `${kind} ${child}`;
    if (!this.referenceRow.has(key)) {
      this.referenceRow.set(key, this.references.length);
      this.references.push([kind, child]);
    }
    return this.referenceRow.get(key);
  }

  // Numbers in place of names

  number(key) {
    if (!this.numbers.has(key)) this.numbers.set(key, this.numbers.size + 1);
    return this.numbers.get(key);
  }

  finish(operations, fragments) {
    const typeNames = [...this.types.keys()].sort();
    const typeRow = new Map(typeNames.map((name, row) => [name, row]));
    const tables = { operations, fragments };
    tables.types = typeNames.map((name) => [this.number(`name ${name}`), typeKind(this.types.get(name))]);
    tables.references = this.references.map(([kind, child]) => [kind, kind < REFERENCE.list ? typeRow.get(child) : child]);
    tables.sets = this.sets.map(({ parent, first, count }) => [typeRow.get(parent.name), first, count]);
    tables.selections = this.selections.map(({ row }) => row.map((word) => (typeof word === 'string' ? this.number(word) : word)));
    tables.arguments = this.arguments.map(({ node, row }) => [this.number(`name ${node.name.value}`), ...row]);
    const { rows, nodes } = this.valueRows();
    tables.values = rows;
    tables.variables = this.variables.map(({ node, row }) => [this.number(`name ${node.variable.name.value}`), ...row]);
    return {
      words: words(tables), operations: this.operations, fragments: this.fragments, sets: this.sets, selections: this.selections,
      arguments: this.arguments, values: nodes, variables: this.variables,
    };
  }

  /** A row for each argument in order; the members of lists and objects follow. */
  valueRows() {
    const rows = [];
    const waiting = this.arguments.map(({ node }) => [NONE, node.value]);
    while (rows.length < waiting.length) {
      const [key, node] = waiting[rows.length];
      if (node.kind === Kind.LIST) {
        rows.push([VALUE.list, key, waiting.length, node.values.length]);
        for (const member of node.values) waiting.push([NONE, member]);
      } else if (node.kind === Kind.OBJECT) {
        rows.push([VALUE.object, key, waiting.length, node.fields.length]);
        for (const member of node.fields) waiting.push([this.number(`name ${member.name.value}`), member.value]);
      } else {
        const [kind, atom] = this.atom(node);
        rows.push([kind, key, atom, 0]);
      }
    }
    return { rows, nodes: waiting.map(([, node]) => node) };
  }

  atom(node) {
    switch (node.kind) {
      case Kind.NULL: return [VALUE.null, 0];
      case Kind.BOOLEAN: return [VALUE.boolean, node.value ? 1 : 0];
      case Kind.INT: return [VALUE.int, this.number(`int ${node.value}`)];
      case Kind.FLOAT: return [VALUE.float, this.number(`float ${node.value}`)];
      case Kind.STRING: return [VALUE.string, this.number(`string ${node.value}`)];
      case Kind.ENUM: return [VALUE.enum, this.number(`name ${node.value}`)];
      default: return [VALUE.variable, this.number(`name ${node.name.value}`)];
    }
  }
}

function typeKind(type) {
  if (isObjectType(type)) return TYPE.object;
  if (isInterfaceType(type)) return TYPE.interface;
  if (isUnionType(type)) return TYPE.union;
  if (isEnumType(type)) return TYPE.enum;
  return isInputObjectType(type) ? TYPE.input : TYPE.scalar;
}
