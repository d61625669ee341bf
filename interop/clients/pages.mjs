// pages.mjs URL...: reads pages one after the other by node's `fetch` with its defaults, and prints the least milliseconds that eight of them took.
const urls = process.argv.slice(2);
const times = [];
for (let first = 0; first < urls.length; first += 8) {
  const begun = performance.now();
  for (const url of urls.slice(first, first + 8)) {
    const reply = await fetch(url);
    if (!reply.ok) throw new Error(`${url}: status ${reply.status}`);
    if (!(await reply.json())['@graph']) throw new Error(`${url}: no page`);
  }
  times.push(performance.now() - begun);
}
console.log(Math.round(Math.min(...times)));
