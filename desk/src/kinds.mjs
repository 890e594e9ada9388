/** Every kind of reply in words: a name for editors and CI, one line, and the long text of `ponybluster explain KIND`. */

const CONFLICT = `Every field of a query is stored in the answer under one name: its alias if it has one, else its own name. Two fields that
are stored in the same place under the same name have room for one answer only. They may stand far from each other: a fragment puts its
fields where it is spread, and it may spread other fragments.`;

const TOOL = 'This is a fault of the program that packed the query or called the check. The query itself was not looked at.';

/** @typedef {{name: string, short: string, long: string}} KindText */

/** @type {Record<number, KindText>} */
export const KINDS = {
  0: { name: 'nothing-wrong', short: 'Nothing is wrong', long: 'Each name in the answer stands for one thing.' },
  1: { name: 'image-header', short: 'The packed image has a wrong header',
    long: `A query with more than 512 fragments has one, for example: the header allows no more. Split such a query.
In all other cases: ${TOOL.replace('This', 'this')}` },
  2: { name: 'budget-too-large', short: 'The budget is over 1,000,000', long: `A check may be given at most 1,000,000 units of work.\n${TOOL}` },
  3: { name: 'scratch-too-short', short: 'Too little working memory was lent', long: `The check works in memory that its caller lends.\n${TOOL}` },
  4: { name: 'table-rule', short: 'The query goes over a limit of the packed image, or the image is damaged',
    long: `A field has at most 64 arguments, an object value has at most 256 members, and values nest at most 64 levels. Pass such a value as a
variable. An image that a right packer made breaks no other rule of the tables.` },
  5: { name: 'fragment-cycle', short: 'A fragment spreads itself',
    long: `A fragment that spreads itself, directly or through others, would never end when it is written out.

  fragment Mark on Glyph { width ...Tone }
  fragment Tone on Glyph { ...Mark }         # Mark again

Take one of the spreads out.` },
  6: { name: 'fragment-chain', short: 'Over 100 fragments follow one another',
    long: 'At most 100 fragments may follow one another, each spread in the one before. Join some of them into one.' },
  7: { name: 'too-deep', short: 'The query goes over 500 steps deep',
    long: 'Each field, spread and inline fragment on the way down is one step; 500 are allowed. Split the query.' },
  8: { name: 'too-nested', short: 'The query nests over 128 levels of fields',
    long: 'Fields within fields, written out through all fragments, may nest 128 levels. Split the query.' },
  9: { name: 'fragment-unused', short: 'A fragment is used by no query',
    long: `No query reaches this fragment. Either it is left over and can go, or its spread is missing: then something that was meant to be asked
is not asked.` },
  10: { name: 'variable-type', short: 'A variable has a type that no variable can have',
    long: `Variables carry values to the service: numbers, strings, enums and input objects. Objects, interfaces and unions are what the
service answers with.

  query Primer($font: Font) { .. }           # Font is an answer
  query Primer($font: String!) { .. }        # right` },
  11: { name: 'variable-twice', short: 'A variable is defined twice', long: 'Each variable of a query is defined once.' },
  12: { name: 'variable-unused', short: 'A variable is not used',
    long: `The query asks its caller for a value that changes nothing. Often a value was written into the query in its place:

  query Primer($side: Side) { .. pos: anchor(side: BELOW) { x y } }` },
  13: { name: 'variable-misfit', short: 'A variable does not fit the argument it is given to',
    long: `The variable's type must be at least as strict as the argument's. What can be null does not fit where null is not allowed, unless one of
the two has a default.

  query Primer($font: String) { font(name: $font) { .. } }     # name takes String!
  query Primer($font: String!) { .. }                          # right` },
  14: { name: 'conflict-shape', short: 'Two fields are stored under one name, with types of different shape',
    long: `${CONFLICT}

  ... on Font  { v: size }      # Int
  ... on Glyph { v: code }      # Int!

A tool that reads \`v\` could not know what it gets. So the shapes must be the same, even where an answer can hold only one of the two.
Give one of them another name.` },
  15: { name: 'conflict-field', short: 'Two different fields are stored under one name',
    long: `${CONFLICT}

  font { n: name  n: nick }     # which of the two is n?

Give one of them another name.` },
  16: { name: 'conflict-arguments', short: 'Two fields are stored under one name, with different arguments',
    long: `${CONFLICT}

  glyph(letter: "ẹ") {
    pos: anchor(side: BELOW) { x y }
    ...Mark                                    # spreads Tone
  }
  fragment Tone on Glyph {
    pos: anchor(side: ABOVE) { x y }           # the dot, or the tone?
  }

Give one of them another name: \`tone: anchor(side: ABOVE) { x y }\`.` },
  17: { name: 'budget', short: 'The budget ran out',
    long: `The check is given a budget of work and stops when it is spent. Nothing is known of what was left, so the query counts as refused. Give a
larger budget, or split the query.` },
  18: { name: 'door-size', short: 'The image does not fit through the door for bytes',
    long: `The door that hosts call by check_query, and the program ponybluster, take images of at most 32,768 bytes, a multiple of 4. Split the
query, or let the host call check_query_lent, which takes images of any length.` },
};

/** Whether a finding is about two fields that are stored under one name. */
export function isConflict({ kind }) {
  return kind >= 14 && kind <= 16;
}

/** What the check is never asked, because there is no image: the rule's name, and one line. */
export const BEFORE = {
  syntax: 'The text is not GraphQL',
  'schema-text': 'The schema itself is wrong',
  schema: 'The query does not fit the schema',
  'fragment-missing': 'A spread names a fragment that no file has',
  'fragment-ambiguous': 'A spread names a fragment that several files have',
  'graphql-js': 'A rule of graphql-js that the proved check does not have',
};
