// The command examples/planner.mjs, as its user runs it.
import assert from 'node:assert/strict';
import { execFile } from 'node:child_process';
import { after, before, test } from 'node:test';
import { fileURLToPath } from 'node:url';
import { tinyStub } from './planner_stub.mjs';

const command = fileURLToPath(new URL('../../examples/planner.mjs', import.meta.url));
const stub = tinyStub();
let server;

before(async () => (server = await stub.listen()));
after(() => server.stop());

/** What the command prints, and its status. */
function run(...words) {
  return new Promise((resolve) => {
    execFile(process.execPath, [command, ...words], (error, out, err) => resolve({ status: error?.code ?? 0, out, err }));
  });
}

test('the command prints the arrival, the rides as lc does, and the pages', async () => {
  const { status, out, err } = await run(server.base, 'A', 'D', '2024-05-01T08:00:00Z');
  assert.deepEqual({ status, err }, { status: 0, err: '' });
  assert.equal(
    out,
    `arrives 2024-05-01T08:40:00.000Z
ride T1 20240501 - 1 1 A 2024-05-01T08:00:00.000Z B 2024-05-01T08:11:00.000Z
ride T2 20240501 - 1 1 B 2024-05-01T08:20:00.000Z D 2024-05-01T08:40:00.000Z
pages 2
`,
  );
});

test('the command says that there is no journey, within the window and beyond it', async () => {
  assert.deepEqual(await run(server.base, 'A', 'D', '2024-05-01T08:00:00Z', '60'), { status: 0, out: 'no journey\npages 1\n', err: '' });
  const beyond = await run(server.base, 'A', 'D', '2024-05-01T12:00:00Z');
  assert.deepEqual(beyond, { status: 0, out: 'no journey\nthe timetable ends with the departure of 2024-05-01T09:00:00.000Z\n', err: '' });
});

test('the command says in a line what goes wrong', async () => {
  const cases = [
    [[server.base, 'A'], 2, 'planner.mjs BASE FROM TO MOMENT [HORIZON]\n'],
    [[server.base, 'A', 'Z', '2024-05-01T08:00:00Z'], 1, 'planner.mjs: there is no stop "Z"\n'],
    [[server.base, 'A', 'D', 'soon'], 1, 'planner.mjs: leave has to be a Date between 1970 and 9998\n'],
    [[`${server.base}none/`, 'A', 'D', '2024-05-01T08:00:00Z'], 1, null],
  ];
  for (const [words, status, message] of cases) {
    const { out, err, ...said } = await run(...words);
    assert.deepEqual({ ...said, out }, { status, out: '' });
    if (message === null) assert.match(err, /^planner.mjs: there is no document at http.*\n$/);
    else assert.equal(err, message);
  }
});
