/** A report as plain data, for programs. Its form is desk/report.schema.json. */

/** @param {import('../check.mjs').Report} report @param {import('../project.mjs').Project} project */
export function plain(report, project) {
  return {
    version: 1,
    passed: report.passed,
    mended: report.mended,
    queries: report.queries,
    findings: report.findings.map((finding) => plainFinding(finding, project)),
  };
}

function plainFinding(finding, project) {
  const { kind, rule, severity, title, sentence, hints, path, operations, differences, places, tried, help, fix, reply } = finding;
  return {
    kind, rule, severity, title, sentence, hints, path, operations,
    differences: differences.map(({ what, first, second, remark, codes }) => ({ what, first, second, remark, codes })),
    places: places.map((place) => ({
      ...range(place.span, project), label: place.label, inside: place.inside, coordinate: place.coordinate, type: place.type,
      marks: place.marks.map((mark) => range(mark, project)),
      reached: place.reached?.map(({ text, span }) => ({ text, ...range(span, project) })),
    })),
    help: tried ? help : undefined,
    fix: tried && fix ? { label: fix.label, edits: fix.edits.map(({ span, text }) => ({ ...range(span, project), text })) } : undefined,
    reply,
  };
}

/** Lines and columns count from 1; the end is one past the last character. */
export function range(span, project) {
  const text = project.text(span);
  const [start, end] = [text.position(span.start), text.position(span.end)];
  return { file: span.file, line: start.line, column: start.column, endLine: end.line, endColumn: end.column };
}

export function json(report, project) {
  return `${JSON.stringify(plain(report, project), null, 2)}\n`;
}
