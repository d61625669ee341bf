// Reports tests of node as the lines of a test.sh: `ok: ..`, `FAILED: ..` or `skipped: ..`, with why it failed, and what a test says that it has seen.

/** The lines of a failure: its message, as it stands in the error. */
function causeOf({ details }) {
  const { error } = details;
  return `${error?.cause?.message ?? error?.message ?? error}`.trimEnd().replaceAll(/^/gm, '  ');
}

export default async function* report(events) {
  for await (const { type, data } of events) {
    // The file of a test is a test to node, and a failing one alone is worth a line.
    const isFile = /\.mjs$/.test(data?.name ?? '');
    if (type === 'test:pass' && data.skip !== undefined) yield `skipped: ${data.name}, since ${data.skip}\n`;
    else if (type === 'test:pass' && !isFile) yield `ok: ${data.name}\n`;
    else if (type === 'test:fail' && (!isFile || data.details.error?.failureType !== 'subtestsFailed')) yield `FAILED: ${data.name}\n${causeOf(data)}\n`;
    else if (type === 'test:diagnostic' && data.message.startsWith('seen ')) yield `  ${data.message}\n`;
  }
}
