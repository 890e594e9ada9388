/** A small JSON Schema validator: the words that the schemas of this folder use, and an error for any other word. */

const TYPES = {
  object: (value) => typeof value === 'object' && value !== null && !Array.isArray(value),
  array: Array.isArray,
  string: (value) => typeof value === 'string',
  boolean: (value) => typeof value === 'boolean',
  integer: Number.isInteger,
  null: (value) => value === null,
};

const RULES = {
  type: (wanted, value) => [wanted].flat().some((name) => TYPES[name](value)),
  const: (wanted, value) => value === wanted,
  enum: (wanted, value) => wanted.includes(value),
  minimum: (least, value) => typeof value !== 'number' || value >= least,
  maximum: (most, value) => typeof value !== 'number' || value <= most,
  minItems: (least, value) => value.length >= least,
  pattern: (wanted, value) => new RegExp(wanted, 'u').test(value),
  required: (names, value) => names.every((name) => Object.hasOwn(value, name)),
};
const PASSED_OVER = ['$schema', '$defs', 'title', 'description'];

/** @returns {string[]} what breaks the schema, each with its path */
export function violations(root, value) {
  const out = [];
  const visit = (schema, at, path) => {
    for (const [word, wanted] of Object.entries(schema)) {
      if (word === '$ref') visit(root.$defs[wanted.replace('#/$defs/', '')], at, path);
      else if (word === 'items') at.forEach((item, i) => visit(wanted, item, `${path}[${i}]`));
      else if (word === 'properties') {
        for (const [name, inner] of Object.entries(wanted)) if (Object.hasOwn(at, name)) visit(inner, at[name], `${path}.${name}`);
      } else if (word === 'additionalProperties') {
        for (const name of Object.keys(at)) if (!Object.hasOwn(schema.properties, name)) out.push(`${path}.${name}: not allowed`);
      } else if (RULES[word]) {
        if (!RULES[word](wanted, at)) {
          out.push(`${path}: ${word} ${JSON.stringify(wanted)}, but it is ${JSON.stringify(at)?.slice(0, 80)}`);
          if (word === 'type') return;
        }
      } else if (!PASSED_OVER.includes(word)) throw new Error(`the validator does not know ${word}`);
    }
  };
  visit(root, value, '$');
  return out;
}
