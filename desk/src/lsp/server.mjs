/** A language server: diagnostics when a file is opened, changed or saved, both fields of a conflict, and the help as a quick fix. */
import { fileURLToPath } from 'node:url';
import { check, PROGRAM_BUDGET } from '../check.mjs';
import { Engine } from '../engine.mjs';
import { findingOfError } from '../findings/before.mjs';
import { Project } from '../project.mjs';
import { readSchema } from '../schema.mjs';
import { diagnosticsOf, touch, uriOf } from './diagnostics.mjs';
import { OpenFiles } from './files.mjs';
import { onMessages, sender } from './rpc.mjs';

const PAUSE = 60; // milliseconds without a change before the check is asked
const WHOLE_TEXTS = 1;
const NO_SUCH_METHOD = -32601;
const FAILED = -32603;

/** @returns {Promise<number>} the exit status */
export function serve(input, output) {
  return new Promise((resolve) => {
    const server = new Server(sender(output), (status) => {
      input.destroy(); // an open pipe would keep the process alive
      resolve(status);
    });
    onMessages(input, (message) => server.take(message));
    input.on('end', () => server.end(1));
  });
}

class Server {
  constructor(send, leave) {
    this.send = send;
    this.leave = leave;
    this.files = new OpenFiles(process.cwd());
    this.options = { budget: PROGRAM_BUDGET };
    this.published = new Set(); // files that have diagnostics
    this.actions = [];
    this.round = 0;
  }

  /** A message that is wrong gets an error if it is a request, and is passed over if it is none. */
  take({ id, method, params }) {
    const handler = Object.hasOwn(HANDLERS, method) ? HANDLERS[method] : undefined;
    let answer = { error: { code: NO_SUCH_METHOD, message: `there is no ${method}` } };
    try {
      if (handler) answer = { result: handler(this, params ?? {}) ?? null };
    } catch (error) {
      answer = { error: { code: FAILED, message: error.message } };
    }
    if (id !== undefined && method) this.send({ id, ...answer });
  }

  hold(uri, body) {
    if (!uri.startsWith('file:')) return;
    this.files.hold(fileURLToPath(uri), body);
    this.later();
  }

  later() {
    clearTimeout(this.timer);
    this.timer = setTimeout(() => this.look(), PAUSE);
  }

  /** Checks what is open and tells the editor, unless a newer look has begun. */
  async look() {
    this.round += 1;
    const mine = this.round;
    try {
      const { report, project } = await this.report();
      if (mine === this.round) this.publish(report, project);
    } catch (error) {
      if (mine === this.round) this.complain(error.message);
    }
  }

  async report() {
    const { schema: schemaTexts, queries } = this.files.project();
    const { schema, errors } = this.schemaOf(schemaTexts);
    if (!schema) return { project: new Project(schemaTexts), report: { findings: errors.map((error) => findingOfError(error, 'schema-text')) } };
    if (!this.engine || this.engine.broken) this.engine = new Engine();
    const project = new Project(queries);
    return { project, report: await check(project, schema, this.engine, { ...this.options, only: new Set(this.files.open.keys()) }) };
  }

  /** Builds the schema only where its text has changed. */
  schemaOf(texts) {
    if (texts.length !== this.schemaTexts?.length || texts.some((text, i) => text !== this.schemaTexts[i])) {
      this.schemaTexts = texts;
      this.schema = readSchema(texts);
    }
    return this.schema;
  }

  publish(report, project) {
    const byUri = new Map([...this.published, ...[...this.files.open.keys()].map(uriOf)].map((uri) => [uri, []]));
    this.actions = [];
    this.complaint = undefined;
    for (const finding of report.findings) {
      for (const { uri, diagnostic, action } of diagnosticsOf(finding, project)) {
        if (!byUri.has(uri)) byUri.set(uri, []);
        byUri.get(uri).push(diagnostic);
        if (action) this.actions.push({ uri, range: diagnostic.range, action });
      }
    }
    for (const [uri, diagnostics] of byUri) this.send({ method: 'textDocument/publishDiagnostics', params: { uri, diagnostics } });
    this.published = new Set([...byUri].filter(([, diagnostics]) => diagnostics.length).map(([uri]) => uri));
  }

  /** Says once what stands in the way. */
  complain(message) {
    if (message === this.complaint) return;
    this.complaint = message;
    this.send({ method: 'window/showMessage', params: { type: 1, message: `ponybluster: ${message}` } });
  }

  end(status) {
    clearTimeout(this.timer);
    this.engine?.stop();
    this.leave(status);
  }
}

/** What the server does at each message. */
const HANDLERS = {
  initialize(server, { rootUri, workspaceFolders, initializationOptions }) {
    const root = workspaceFolders?.[0]?.uri ?? rootUri;
    if (root?.startsWith('file:')) server.files.root = fileURLToPath(root);
    if (Number.isInteger(initializationOptions?.budget)) server.options.budget = initializationOptions.budget;
    return {
      serverInfo: { name: 'ponybluster' },
      capabilities: {
        textDocumentSync: { openClose: true, change: WHOLE_TEXTS, save: true },
        codeActionProvider: { codeActionKinds: ['quickfix'] },
      },
    };
  },

  'textDocument/didOpen': (server, { textDocument: { uri, text } }) => server.hold(uri, text),

  'textDocument/didChange': (server, { textDocument: { uri }, contentChanges }) => server.hold(uri, contentChanges.at(-1).text),

  'textDocument/didSave': (server) => server.later(),

  'textDocument/didClose'(server, { textDocument: { uri } }) {
    if (uri.startsWith('file:')) server.files.close(fileURLToPath(uri));
    server.later();
  },

  'workspace/didChangeWatchedFiles': (server) => server.later(),

  'textDocument/codeAction'(server, { textDocument: { uri }, range }) {
    return server.actions.filter((one) => one.uri === uri && touch(one.range, range)).map(({ action }) => action);
  },

  shutdown(server) {
    server.isShut = true;
  },

  exit: (server) => server.end(server.isShut ? 0 : 1),
};
