/** The command: reads its words and answers with an exit status. 0 all pass, 1 something is refused, 2 usage or unreadable input. */
import { parseArgs } from 'node:util';
import { EngineError } from './engine.mjs';
import { FileError } from './files.mjs';
import { UsageError } from './inputs.mjs';

const USAGE = `usage: ponybluster check [--schema FILE] QUERIES..    check stored queries
       ponybluster explain IMAGE                      check a packed image and say what the answer means
       ponybluster explain KIND                       what a kind of answer means, as in: explain 16
       ponybluster lsp                                language server on standard input and output

check:
  QUERIES            files, folders, or patterns in quotes ('queries/**/*.graphql'), with the fragments that they share
  --schema FILE      the schema in GraphQL's language; may be given several times
  --format FORM      text (the default), json or sarif
  --sheet OUT.html   also write a page for a designer, to read or to print
  --budget N         units of work for each query, at most 1,000,000 (default 1000, as the program ponybluster has)
  --all-rules        also show what graphql-js's other rules say
Where no schema or no query is named, .graphqlrc.json in this folder or above it names them. Where there is none, a schema near the
first query is taken: NAME.schema.graphql beside it, or schema.graphql in its folder or above it.

exit status: 0 all pass; 1 something is refused; 2 usage or unreadable input
`;

const OPTIONS = {
  schema: { type: 'string', multiple: true, default: [] },
  format: { type: 'string', default: 'text' },
  sheet: { type: 'string' },
  budget: { type: 'string' },
  'all-rules': { type: 'boolean', default: false },
  help: { type: 'boolean', short: 'h', default: false },
};

/** @returns {Promise<number>} the exit status */
export async function main(words) {
  const out = (text) => process.stdout.write(text);
  const err = (text) => process.stderr.write(text);
  process.stdout.on('error', (error) => leave(error, err));
  try {
    return await run(words, out, err);
  } catch (error) {
    if (error instanceof UsageError || error.code?.startsWith?.('ERR_PARSE_ARGS')) err(`ponybluster: ${error.message}\n\n${USAGE}`);
    else if (error instanceof FileError || error instanceof EngineError || error.code === 'MISSING_GRAPHQL') err(`ponybluster: ${error.message}\n`);
    else err(`ponybluster: a fault of this tool, please report it: ${error.stack?.split('\n').slice(0, 3).join(' | ') ?? error}\n`);
    return 2;
  }
}

/** The reader of the output went away, or the disk is full. */
function leave(error, err) {
  const why = error.code === 'EPIPE' ? 'was closed before all of it was written' : `cannot be written (${error.code})`;
  err(`ponybluster: the output ${why}\n`);
  process.exit(2);
}

async function run([command, ...rest], out, err) {
  const { values, positionals } = parseArgs({ args: rest, allowPositionals: true, options: OPTIONS });
  if (values.help || command === 'help' || command === '--help' || command === '-h') {
    out(USAGE);
    return 0;
  }
  if (command === 'check') return (await import('./commands/check.mjs')).runCheck(values, positionals, out, err);
  if (command === 'explain') return (await import('./commands/explain.mjs')).runExplain(positionals, out);
  if (command === 'lsp') return (await import('./lsp/server.mjs')).serve(process.stdin, process.stdout);
  throw new UsageError(command ? `there is no command ${command}` : 'which command?');
}
