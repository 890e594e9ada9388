/** Starts the command, if this Node is new enough to read its files. */
const LEAST = 18;

if (parseInt(process.versions.node, 10) < LEAST) {
  process.stderr.write(`ponybluster: needs node ${LEAST} or later, and this is ${process.versions.node}\n`);
  process.exitCode = 2;
} else {
  const { main } = await import('./main.mjs');
  process.exitCode = await main(process.argv.slice(2));
}
