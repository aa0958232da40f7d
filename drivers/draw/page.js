/* The page around the drawing: what was found, the panel, the search, the keyboard and the mouse. */
let rest = 0, told = 0;
const byId = id => document.getElementById(id);
function el(name, className, ...inner) {
  const made = Object.assign(document.createElement(name), {className});
  made.append(...inner);
  return made;
}
const button = (style, onclick, ...inner) => Object.assign(el("button", style, ...inner), {type: "button", onclick});
const dot = group => Object.assign(el("i", "dot"), {style: `background: ${group === undefined ? ink.dim : hueOf(group)}`});

/* A JSON text laid out, its numbers as they are written; any other text as it is. Signs that turn or hide text are shown as escapes. */
function pretty(text, style = "") {
  const made = el("pre", style), plain = text.replace(/[\u007f-\u009f\u200b-\u200f\u2028-\u202e\u2066-\u2069\ufeff]/g, sign => "\\u" + sign.charCodeAt(0).toString(16).padStart(4, "0"));
  try { JSON.parse(text); } catch { made.textContent = plain || "nothing"; return made; }
  const tokens = plain.match(/"(?:[^"\\]|\\.)*"|[{}[\],:]|[^\s{}[\],:"]+/g), open = [], wide = new Map();
  let length = 0, depth = 0, inside = 0;
  tokens.forEach((token, i) => {
    if ("{[".includes(token)) open.push([i, length, true]);
    else if (open.length && /^["{}[]/.test(token)) open[open.length - 1][2] = false;
    length += token.length + (token === "," || token === ":" ? 1 : 0);
    if (!"}]".includes(token)) return;
    const [start, before, flat] = open.pop();
    wide.set(start, flat ? 0 : length - before);
    if (open.length) open[open.length - 1][2] = false;
  });
  const turn = () => "\n" + "  ".repeat(depth);
  tokens.forEach((token, i) => {
    if ("{[".includes(token)) {
      if (inside || wide.get(i) <= 44) { inside++; made.append(token); } else { depth++; made.append(token + turn()); }
    } else if ("}]".includes(token)) {
      if (inside) { inside--; made.append(token); } else { depth--; made.append(turn() + token); }
    } else if (token === ",") made.append(inside ? ", " : "," + turn());
    else if (token === ":") made.append(": ");
    else made.append(el("span", tokens[i + 1] === ":" ? "name" : token[0] === '"' ? "text" : "number", token), ...dateOf(tokens, i));
  });
  return made;
}

/* Behind the number of {"date": number} the date that it is, where it is one that the browser can tell. */
function dateOf(tokens, i) {
  if (tokens[i - 1] !== ":" || tokens[i - 2] !== '"date"' || !/^-?\d+$/.test(tokens[i])) return [];
  const date = new Date(Math.floor(Number(tokens[i]) / 1000));
  return isNaN(date) ? [] : [el("span", "name", ` ${date.toISOString().replace("T", " ").replace(/(:00)?\.000Z$/, "").replace("Z", "")} UTC`)];
}

const indexFile = entries => ["indexes:\n", ...new Set(entries.filter(Boolean))].join("").replace(/^indexes:\n$/, "");
const copyButton = text => button("copy", async ({currentTarget: pressed}) => {
  pressed.textContent = await Promise.resolve().then(() => navigator.clipboard.writeText(text)).then(() => "Copied", () => "The browser doesn't let it be copied");
  setTimeout(() => pressed.textContent = "Copy as index.yaml", 1500);
}, "Copy as index.yaml");
const heading = (text, more = "") => el("h3", "", text, more);

function commitButton(number, why) {
  const commit = commitOf.get(number);
  return button("commit", () => choose(commit.row), dot(commit.groups[0]), el("span", "", el("b", "", `Commit ${number} `), written(commit), el("small", "", why)));
}

/* The rows of headings, and of a row the test that it belongs to. */
const headings = col.op.flatMap((op, row) => run.ops[op] === "test" ? [row] : []);
const testOf = row => col.label[headings[firstWhere(headings.length, at => headings[at] > row) - 1]];

function headingPanel(row) {
  const end = headings.find(other => other > row) ?? ROWS, found = notable.filter(it => row < it && it < end);
  return [el("div", "where", "test"), el("h2", "", col.label[row]), el("p", "", `Lines ${col.line[row]} to ${col.line[end - 1]}.`),
    ...found.map(it => button("commit", () => choose(it), dot(), el("span", stateOf(it), `${nameOf(it)} ${col.label[it]}`, el("small", "", `line ${col.line[it]} · ${col.result[it] || stateOf(it)}`))))];
}

function rowPanel(row) {
  if (isCut(row)) return [el("div", "where", `before line ${col.line[row]}`), el("h2", "", col.label[row]), el("p", "", "Its indexes were built while the first one served. All that was committed is applied; transactions, ids and what clients have seen go on.")];
  if (isHeading(row)) return headingPanel(row);
  const [asked, answer] = run.texts[row], parts = [el("div", "where", `line ${col.line[row]} · client ${col.client[row]} · round ${col.round[row]}`, el("span", "", siteIn.get(row) ?? (isOwn(row) ? "asked by the driver itself" : "")))];
  if (testOf(row)) parts.push(el("div", "where", testOf(row)));
  parts.push(el("h2", row === wrongRow ? "wrong" : "", `${nameOf(row)} ${col.label[row]}`), ...story(row).map(([tone, text]) => el("p", tone, text)));
  const missed = missedBy(row, 40), query = queryIn.get(row) || {}, others = missed.filter(it => !it.ofKind).slice(0, 5);
  for (const {number, shard, ofKind} of missed) if (ofKind) parts.push(commitButton(number, `committed, not applied on shard ${shard} · ${byWhom(commitOf.get(number))}`));
  if (query.ofKind > 40) parts.push(el("p", "", `and ${(query.ofKind - 40).toLocaleString("en")} more`));
  if (query.others) parts.push(heading(`Missed, without effect on the results: ${query.others.toLocaleString("en")}`), ...others.map(it => commitButton(it.number, `not applied on shard ${it.shard}`)));
  const [inTheWay] = wayIn.get(row) || [], commit = commitOf.get(commitInRow.get(row));
  if (commitOf.has(inTheWay)) parts.push(commitButton(inTheWay, byWhom(commitOf.get(inTheWay))));
  const writes = (commit?.writes || []).slice(0, 40).map(([label, gone, , group]) => el("div", "commit", dot(group), `${gone ? "delete" : "put"} ${label}`));
  if (writes.length > 1) parts.push(heading("Writes"), ...writes);
  const index = indexFile(missingIn.get(row) || []);
  if (index) parts.push(pretty(index), heading("", copyButton(index)));
  parts.push(heading("Request"), pretty(asked), heading("Reply"), pretty(answer, row === wrongRow ? "wrong" : ""));
  if (row === wrongRow && run.verdict.expected !== null) parts.push(heading("Expected"), pretty(run.verdict.expected, "expected"));
  return parts;
}

function runPanel() {
  const groups = new Map(), index = indexFile([...missingIn.values()].flat());
  for (const commit of commitOf.values()) for (const group of commit.groups) groups.has(group) ? groups.get(group).count++ : groups.set(group, {group, count: 1, row: commit.row});
  const parts = [el("h2", "", "The run"), el("p", "", `${many(clients.length, "client")} in ${many(new Set(col.round).size, "round")} made ${many(run.commits.length, "commit")} in ${many(groups.size, "entity group")} on ${many(run.shards, "shard")}.`)];
  if (!notable.length) parts.push(el("p", "good", "No conflict, no stale query, no missing index and no refusal."));
  parts.push(...run.notes.map(note => el("p", "stale", note)));
  if (index) parts.push(heading("Missing indexes", copyButton(index)), pretty(index));
  parts.push(heading(`Entity groups${groups.size > 60 ? ", the 60 with the most commits" : ""}`), ...[...groups.values()].sort((a, b) => b.count - a.count).slice(0, 60).map(({group, count, row}) =>
    button("commit", () => choose(row), dot(group), el("span", "", run.groups[group][0], el("small", "", `${many(count, "commit")} · shard ${run.groups[group][1]}`)))));
  return parts;
}

function choose(row, scroll = true) {
  chosen = row;
  Object.assign(byId("panel"), {scrollTop: 0}).replaceChildren(...(row < 0 ? runPanel() : rowPanel(row)));
  const y = row * H, room = at.height - HEAD;
  if (row >= 0 && scroll && (y < view.scrollTop + H || y + 2 * H > view.scrollTop + room)) view.scrollTop = y - room / 2;
  clearTimeout(told);
  told = setTimeout(() => history.replaceState(null, "", row < 0 ? "#" : `#${col.line[row]}`), 300);
  repaint();
}
/* The next row of a list behind the chosen one, or the one before it; from the other end where there is none. */
function next(rows, way = 1) {
  const later = way > 0 ? rows.find(row => row > chosen) : rows.findLast(row => row < chosen);
  if (rows.length) choose(later ?? (way > 0 ? rows[0] : rows[rows.length - 1]));
}

function summary() {
  const words = (count, one, more) => [el("b", "", count.toLocaleString("en")), ` ${count === 1 ? one : more}`], index = indexFile([...missingIn.values()].flat()), {verdict, line} = run.verdict || {};
  const goes = (state, ...names) => findings[state] ? [button(state, () => next(findings[state]), ...words(findings[state].length, ...names))] : [];
  const judged = verdict === "legal" ? [el("span", "good", el("b", "", "legal"))] : verdict ? [button("wrong", () => choose(wrongRow), el("b", "", line ? `not legal: line ${line}` : verdict))] : [];
  byId("summary").append(...judged, el("span", "", ...words(ROWS - col.op.filter((_, row) => isHeading(row)).length, "line", "lines")), el("span", "", ...words(run.commits.length, "commit", "commits")), ...goes("conflict", "conflict", "conflicts"),
    ...goes("overwrote", "unseen overwrite", "unseen overwrites"), ...goes("stale", "stale query", "stale queries"), ...goes("missing", "missing index", "missing indexes"),
    ...(index ? [copyButton(index)] : []), ...goes("refused", "refusal", "refusals"), ...goes("silent", "line without reply", "lines without reply"));
}

/* Rows that have the words as they are written; where there are none, those that have all of the words. A number behind `client` or `line` is whole. */
function search(text) {
  const words = text.toLowerCase().replace(/\b(client|line):\s*/g, "$1 ").match(/(?:client|line) \d+|\S+/g) || [];
  const holds = (hay, word) => /(^| )(client|line) \d+$/.test(word) ? `${hay} `.includes(`${word} `) : hay.includes(word);
  const rows = wanted => searchTexts().flatMap((hay, row) => wanted.every(word => holds(hay, word)) ? [row] : []);
  found = words.length ? rows([words.join(" ")]) : null;
  if (found && !found.length) found = rows(words);
  byId("matches").textContent = found ? found.length.toLocaleString("en") : "";
  repaint();
}

const notable = [...new Set(Object.values(findings).flat())].sort((a, b) => a - b);
function press(event) {
  const typing = document.activeElement === byId("search"), key = event.key;
  if (event.ctrlKey || event.metaKey || event.altKey) return;
  if (key === "Escape") {
    if (typing || found) { byId("search").value = ""; search(""); view.focus(); } else choose(-1);
  } else if (typing && key === "Enter") next(found || [], event.shiftKey ? -1 : 1);
  else if (key === "/" && !typing) byId("search").focus();
  else if (key === "ArrowDown" || key === "ArrowUp") {
    if (ROWS) choose(Math.max(0, Math.min(ROWS - 1, key === "ArrowDown" ? chosen + 1 : chosen < 0 ? ROWS - 1 : chosen - 1)));
  } else if (["Home", "End", "PageUp", "PageDown"].includes(key) && !typing) {
    const page = Math.max(1, Math.floor((at.height - HEAD) / H) - 1), from = Math.max(0, chosen);
    if (ROWS) choose({Home: 0, End: ROWS - 1, PageUp: Math.max(0, from - page), PageDown: Math.min(ROWS - 1, from + page)}[key]);
  } else if ((key === "ArrowRight" || key === "ArrowLeft") && !typing) next(found || notable, key === "ArrowRight" ? 1 : -1);
  else return;
  event.preventDefault();
}

function hover(event) {
  const frame = view.getBoundingClientRect(), row = rowAt(event.clientY - frame.top), tip = byId("tip");
  const inside = event.type === "pointermove" && row >= 0 && row < ROWS && event.clientY - frame.top > HEAD && event.clientX - frame.left < at.width - at.overview;
  if (inside && row === hovered) return;
  hovered = inside ? row : -1;
  tip.hidden = true;
  clearTimeout(rest);
  if (inside && row !== chosen) rest = setTimeout(() => {
    const missed = missedBy(row, 3).filter(it => it.ofKind).map(it => `Commit ${it.number}, ${written(commitOf.get(it.number))}: committed, not applied on shard ${it.shard}.`);
    const lines = [...story(row).slice(0, 2).map(([, text]) => text), ...missed], y = rowY(row) + frame.top;
    tip.replaceChildren(...lines.map(text => el("div", "", text)));
    tip.hidden = !lines.length;
    tip.style.left = Math.max(8, Math.min(event.clientX + 14, innerWidth - tip.offsetWidth - 8)) + "px";
    tip.style.top = y + (y + H / 2 + tip.offsetHeight + 8 > innerHeight ? -H / 2 - tip.offsetHeight - 4 : H / 2 + 4) + "px";
  }, 140);
  repaint();
}
function down(event) {
  const frame = view.getBoundingClientRect(), x = event.clientX - frame.left, y = event.clientY - frame.top;
  if (at.overview && x > at.width - at.overview && x < at.width) view.scrollTop = y / at.height * (ROWS * H + HEAD + FOOT) - at.height / 2;
  else if (event.type === "pointerdown" && x < at.width && y > HEAD && rowAt(y) < ROWS) choose(rowAt(y), false);
}

function start() {
  const redo = () => { readInk(); place(); repaint(); };
  [document.title, byId("title").textContent] = [`${run.title} · a run of Torfyllan`, run.title];
  redo();
  summary();
  const line = rowOfLine.get(Number(location.hash.slice(1)));
  choose(line ?? (wrongRow >= 0 ? wrongRow : notable.find(row => !["silent", "refused"].includes(stateOf(row))) ?? -1));
  for (const [name, listen] of [["scroll", repaint], ["pointermove", event => event.buttons ? down(event) : hover(event)], ["pointerleave", hover], ["pointerdown", down]]) view.addEventListener(name, listen);
  byId("search").addEventListener("input", event => search(event.target.value));
  document.addEventListener("keydown", press);
  new ResizeObserver(redo).observe(view);
  matchMedia("(prefers-color-scheme: dark)").addEventListener("change", () => { redo(); choose(chosen, false); });
  view.focus();
}
start();
