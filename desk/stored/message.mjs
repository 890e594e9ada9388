/** What the desk says of a case. */
import { text } from '../src/show/text.mjs';
import { checked } from '../tests/support/checked.mjs';

export async function message({ files, wrap = (one) => one, budget, schema, allRules }, engine) {
  const { report, project } = await checked(files, { engine: wrap(engine), budget, schema, allRules });
  return text(report, project);
}
