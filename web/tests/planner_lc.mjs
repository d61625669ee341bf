// The program `lc` for tests: its publishers, its answers, and its pages as they are, read by nothing of the planner.
import { execFile, spawn } from 'node:child_process';
import { existsSync } from 'node:fs';
import { rm, mkdtemp } from 'node:fs/promises';
import http from 'node:http';
import net from 'node:net';
import { tmpdir } from 'node:os';
import path from 'node:path';
import { createInterface } from 'node:readline';
import { fileURLToPath } from 'node:url';
import { promisify } from 'node:util';

const run = promisify(execFile);
const here = path.dirname(fileURLToPath(import.meta.url));

/** The proved program, or null where it is not here. */
export const LC = [process.env.LC, path.join(here, '../../crates/lc/out/lc')].find((name) => name && existsSync(name)) ?? null;

/** A fetch with one connection for each request, as `lc serve` needs it of a client that comes twice at once. A test may ask for node's own instead. */
export function closingFetch(url, { headers = {}, signal } = {}) {
  return new Promise((resolve, reject) => {
    const request = http.get(url, { headers, signal, agent: false }, (reply) => {
      const chunks = [];
      reply.on('data', (chunk) => chunks.push(chunk)).on('error', reject);
      reply.on('end', () => {
        const body = [204, 302].includes(reply.statusCode) ? null : Buffer.concat(chunks);
        resolve(new Response(body, { status: reply.statusCode, headers: reply.headers }));
      });
    });
    request.on('error', reject);
  });
}

export const testFetch = process.env.PLANNER_FETCH === 'own' ? fetch : closingFetch;

/** Feeds and messages of planner_feed.py in a directory of their own. */
export async function makeFeeds(rows, seed, parts) {
  const folder = await mkdtemp(path.join(tmpdir(), 'planner-'));
  await run('python3', [path.join(here, 'planner_feed.py'), String(rows), String(seed), String(parts), folder]);
  return { folder, remove: () => rm(folder, { recursive: true }) };
}

async function freePort() {
  const server = net.createServer().listen(0, '127.0.0.1');
  await new Promise((resolve) => server.once('listening', resolve));
  const { port } = server.address();
  await new Promise((resolve) => server.close(resolve));
  return port;
}

/** Publishes a feed until `stop` is called. */
export async function serve(feed, words = []) {
  const port = await freePort();
  const options = ['--days', '3', '--port', String(port), '--connections', '1000000', ...words];
  const child = spawn(LC, ['serve', feed, '20240430', ...options], { stdio: ['ignore', 'pipe', 'inherit'] });
  const ended = new Promise((resolve) => child.once('exit', resolve));
  const stop = async () => {
    child.kill();
    await ended;
  };
  for await (const line of createInterface({ input: child.stdout })) {
    if (line === `listening ${port}`) return { base: `http://localhost:${port}/`, stop };
  }
  throw new Error('lc serve does not listen');
}

/** Posts a message to a publisher that takes them. */
export function post(base, body) {
  return new Promise((resolve, reject) => {
    const request = http.request(`${base}updates`, { method: 'POST', agent: false, headers: { 'Content-Length': body.length } }, (reply) => {
      reply.resume().on('end', () => resolve(reply.statusCode));
    });
    request.on('error', reject).end(body);
  });
}

const seconds = (moment) => Date.parse(moment) / 1000;

/** What the lines of one client say: version, journey with leaves, arrives, rides and lines, and exchanges. */
function readBlock(lines) {
  const block = { version: null, journey: null, exchanges: null };
  const legs = lines.filter((line) => /^(walk|ride) /.test(line));
  for (const line of lines) {
    const [word, ...rest] = line.split(' ');
    if (word === 'version') block.version = seconds(rest[0]);
    if (word === 'journey') block.journey = { rides: Number(rest[0]), arrives: seconds(rest[2]), lines: legs };
    if (word === 'exchanges') block.exchanges = Number(rest[0]);
    if (['refused', 'link', 'peer', 'error'].includes(word)) throw new Error(line);
  }
  if (block.journey) {
    const first = legs.find((line) => line.startsWith('ride '));
    const before = legs[0].startsWith('walk ') ? Number(legs[0].split(' ')[3]) : 0;
    block.journey.leaves = seconds(first.split(' ')[7]) - before;
  }
  return block;
}

/** What `ask`, `arrive` or `fewest` answers to one question over a feed. */
export async function answer(command, feed, { from, to, moment }, words) {
  const { stdout } = await run(LC, [command, feed, ...words, '--', from, to, moment]);
  return readBlock(stdout.trimEnd().split('\n'));
}

/** What `plan` answers to the questions of a script. */
export async function planned(base, script, words = []) {
  const { stdout } = await run(LC, ['plan', base, script, ...words], { maxBuffer: 1 << 26 });
  return stdout.split(/^client \d+\n/m).slice(1).map((text) => readBlock(text.trimEnd().split('\n')));
}

async function json(url) {
  return (await testFetch(url)).json();
}

/** All connections of a version in their order, as the pages have them, and the stops document. */
export async function recordOf(base, version) {
  const connections = [];
  let next = `${base}memento/connections?version=${new Date(version * 1000).toISOString()}&departureTime=1970-01-01T00:00:00.000Z`;
  while (next) {
    const page = await json(next);
    connections.push(...page['@graph']);
    next = page['hydra:next'];
  }
  return { base, connections, places: new Map(connections.map((entry, place) => [entry['@id'], place])), document: await json(`${base}stops`) };
}
