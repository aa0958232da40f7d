"use strict";
/* The run's data, and what follows from it. A row is a line of the run in the order in which it is drawn. */
const run = JSON.parse(document.getElementById("run").textContent);
const col = run.columns, ROWS = col.line.length, SHARDS = run.shards;
const byRow = list => new Map(list.map(([row, ...rest]) => [row, rest]));
const stateOf = row => row === wrongRow ? "wrong" : run.states[col.state[row]];
const opOf = row => run.ops[col.op[row]], nameOf = row => opOf(row).replace("_", " ").replace("?", "");
const commitOf = new Map(run.commits.map(([number, row, groups, writes]) => [number, {number, row, groups, writes}]));
const commitInRow = new Map(run.commits.map(([number, row]) => [row, number]));
const countsIn = byRow(run.counts);
const queryIn = new Map(run.queries.map(([row, scope, ofKind, others, meanwhile, commits]) => [row, {scope, ofKind, others, meanwhile, commits: commits && new Set(commits)}]));
const isStale = row => queryIn.get(row)?.ofKind > 0;
const rowOfLine = new Map(col.line.map((line, row) => [line, row]));
const wrongRow = rowOfLine.get(run.verdict?.line) ?? -1;
const spans = run.spans.map(([client, first, last, end, writes, touches]) => ({client, first, last, end, writes, touches}));
const spanOf = row => spans.find(span => span.client === col.client[row] && span.first <= row && row <= span.last);
const touchIn = byRow(spans.flatMap(span => span.touches));
const wayIn = byRow(run.ways);
const strongIn = byRow(run.strong);
const missingIn = byRow(run.missing);
const siteIn = new Map(run.sites);
const isCut = row => opOf(row) === "cut", isHeading = row => opOf(row) === "test" || isCut(row);
const isOwn = row => siteIn.size > 0 && !siteIn.has(row) && !isHeading(row);
const clients = [...new Set(col.client)].sort((a, b) => a - b);
const usedShards = run.entries.flatMap((entries, shard) => entries.length ? [shard] : []);

/* Behind each row, shard by shard: how many entries are committed, and how many are known to be applied. */
const size = new Int32Array(ROWS * SHARDS), edge = new Int32Array(ROWS * SHARDS);
{
  const sizes = new Int32Array(SHARDS), edges = new Int32Array(SHARDS);
  for (let row = 0; row < ROWS; row++) {
    for (const group of commitOf.get(commitInRow.get(row))?.groups || []) sizes[run.groups[group][1]]++;
    (countsIn.get(row)?.[0] || []).forEach((count, shard) => edges[shard] = Math.max(edges[shard], count));
    const [shard, count] = strongIn.get(row) || [0, 0];
    edges[shard] = Math.max(edges[shard], count);
    size.set(sizes, row * SHARDS);
    edge.set(edges, row * SHARDS);
  }
}
const sizeAt = (row, shard) => row < 0 ? 0 : size[row * SHARDS + shard];
const edgeAt = (row, shard) => row < 0 ? 0 : edge[row * SHARDS + shard];

/* The first number from low below high for which a test holds that, once it holds, holds on; high where there is none. */
function firstWhere(high, holds, low = 0) {
  if (low >= high) return low;
  const middle = (low + high) >> 1;
  return holds(middle) ? firstWhere(middle, holds, low) : firstWhere(high, holds, middle + 1);
}

const writesOfKind = (number, group, wanted) => commitOf.get(number).writes.some(([, , scope, into]) => into === group && (scope === wanted || run.scopes[scope][1] === wanted));

/* Whether an entry that a query missed would have changed its results. */
const changes = (query, number, group) => (!query.commits || query.commits.has(number)) && writesOfKind(number, group, query.scope);

/* The entries that the query of a row missed, those that would have changed its results first, at most so many of each. */
function missedBy(row, most) {
  const query = queryIn.get(row), [counts] = countsIn.get(row) || [], ofKind = [], others = [];
  if (!query || query.ofKind + query.others === 0) return ofKind;
  run.entries.forEach((entries, shard) => {
    for (let at = counts[shard]; at < entries.length && entries[at][0] <= col.known[row]; at++) {
      const [number, group] = entries[at], list = changes(query, number, group) ? ofKind : others;
      if (list.length < most) list.push({number, group, shard, ofKind: list === ofKind});
    }
  });
  return [...ofKind.sort((a, b) => a.number - b.number), ...others];
}

/* The first and last rows of each round in which several clients ran at once. */
const together = [];
for (let row = 0, start = 0; row < ROWS; row++) {
  if (col.round[row + 1] === col.round[row]) continue;
  if (col.client.slice(start, row + 1).some(client => client !== col.client[start])) together.push([start, row]);
  start = row + 1;
}

/* The rows with a state, of each state. */
const findings = {};
for (let row = 0; row < ROWS; row++) for (const state of new Set([stateOf(row), run.states[col.state[row]]])) if (state) (findings[state] ??= []).push(row);

/* Where a row shows words: a long id that the server drew is shortened, and texts to search in are made once. */
const short = text => text.replace(/\b45035996\d{4}(\d{4})\b/g, "…$1");
let searched = null;
const searchTexts = () => searched ??= col.line.map((line, row) => {
  const written = opOf(row) === "commit" ? (commitOf.get(commitInRow.get(row))?.writes || []).map(([label]) => label).join(" ") : "";
  return `line ${line} client ${col.client[row]} ${opOf(row)} ${col.label[row]} ${written} ${col.result[row]} ${stateOf(row)} ${siteIn.get(row) ?? ""}`.toLowerCase();
});
