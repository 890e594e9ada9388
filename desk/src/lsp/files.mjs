/** The files of an editor's project: what is open counts in place of what is on the disk. A file that did not change is read once. */
import { statSync } from 'node:fs';
import path from 'node:path';
import { configFiles, findConfig, schemaNear } from '../config.mjs';
import { FileError, expand, readText } from '../files.mjs';
import { Text } from '../text.mjs';

export class OpenFiles {
  constructor(root) {
    this.root = root;
    this.open = new Map(); // by full path
    this.known = new Map(); // full path -> time of its last change, and its text
  }

  hold(file, body) {
    if (this.open.get(file)?.body !== body) this.open.set(file, new Text(file, body));
  }

  close(file) {
    this.open.delete(file);
  }

  text(file) {
    if (this.open.has(file)) return this.open.get(file);
    const { mtimeMs = 0, size = 0 } = statSync(file, { throwIfNoEntry: false }) ?? {};
    const stamp = `${mtimeMs} ${size}`;
    if (this.known.get(file)?.stamp !== stamp) this.known.set(file, { stamp, text: readText(file) });
    return this.known.get(file).text;
  }

  /**
   * The files that belong together: those that .graphqlrc.json names (of the editor's folder, else near the first open file), with those that
   * are open. Without it, the .graphql files in the folder of the schema that is near to the first open file.
   * @returns {{schema: Text[], queries: Text[]}}
   */
  project() {
    const [first] = this.open.keys();
    const config = findConfig(this.root) ?? (first && findConfig(path.dirname(first)));
    const files = config ? configFiles(config) : this.near();
    const isSchema = new Set(files.schema);
    const queries = [...new Set([...files.documents, ...this.open.keys()])].filter((file) => !isSchema.has(file) && !/\.schema\.graphql$/.test(file));
    return { schema: files.schema.map((file) => this.text(file)), queries: queries.map((file) => this.text(file)) };
  }

  near() {
    const [first] = [...this.open.keys()].filter((file) => !/schema\.graphql$/.test(file));
    const schema = first && schemaNear(first);
    if (!schema) throw new FileError('which schema? Write .graphqlrc.json with "schema" and "documents", or put schema.graphql beside the queries');
    if (path.basename(schema) !== 'schema.graphql') return { schema: [schema], documents: [] };
    return { schema: [schema], documents: expand(path.dirname(schema)) };
  }
}
