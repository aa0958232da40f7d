/* The drawing: lanes by client, the journal, and the entries of each shard, of which only what is in view is drawn. */
const view = document.getElementById("view"), canvas = document.getElementById("scene"), pen = canvas.getContext("2d");
const H = 28, HEAD = 46, GUTTER = 58, OVERVIEW = 56, FOOT = 40, HUES = [255, 165, 310, 205, 345, 130, 285, 230, 185, 330, 150, 270];
let ink = {}, at = {}, chosen = -1, hovered = -1, found = null, waiting = 0;

function readInk() {
  const style = getComputedStyle(document.documentElement);
  for (const name of "ground panel ink dim faint band chosen accent stale conflict missing light chroma pale sans".split(" ")) ink[name] = style.getPropertyValue("--" + name).trim();
  Object.assign(ink, {wrong: ink.conflict, overwrote: ink.conflict, refused: ink.dim, silent: ink.dim});
}
const hueOf = group => `oklch(${Number(ink.light) - 0.1 * (Math.floor(group / HUES.length) % 2)} ${ink.chroma} ${HUES[group % HUES.length]})`;

/* The width with which most words of the rows are whole, and most labels of the journal; few long ones don't take the room of all. */
const MEASURED = 2000, MOST = 0.92;
let needs = null;
function needed() {
  if (needs) return needs;
  const words = [], labels = [], ofMost = widths => widths.sort((a, b) => a - b)[Math.floor(MOST * (widths.length - 1))] || 0;
  for (let row = 0; row < Math.min(ROWS, MEASURED); row++) {
    const query = queryIn.get(row), tail = query?.ofKind ? ` · missed ${query.ofKind}` : "";
    words.push(wideOf(nameOf(row) + short(col.label[row]), "12.5px") + wideOf(short(col.result[row]) + tail, "600 12.5px") + 46);
  }
  for (const commit of run.commits.slice(0, MEASURED).map(([number]) => commitOf.get(number))) {
    const label = commit.groups.length > 1 ? many(commit.groups.length, "group") : commit.groups.length ? short(run.groups[commit.groups[0]][0]) : "no write";
    labels.push(wideOf(String(commit.number), "600 12.5px") + wideOf(label, "12.5px") + 52);
  }
  return needs = {words: ofMost(words), labels: ofMost(labels)};
}

/* Where all stands. Words are in the lanes where there is room for them, else in one column beside narrow lanes. The journal's labels and then the
   words have the room that they need, as far as it goes with a least one for each shard; the shards have what is left, up to what they can use. */
const SHARD = 22, PHONE = 600;
function place() {
  const clamp = (value, low, high) => Math.max(low, Math.min(high, value)), {clientWidth: width, clientHeight: height} = view;
  const overview = ROWS * H + HEAD > height && width >= PHONE ? OVERVIEW : 0, free = width - overview - GUTTER - 12;
  const count = clients.length, shards = usedShards.length, lengths = usedShards.map(shard => run.entries[shard].length), need = needed();
  const wanted = lengths.map(length => Math.max(SHARD, (length <= 12 ? 17 * Math.max(length, 2) : 11 * Math.min(length, 22)) + 62)), total = wanted.reduce((sum, each) => sum + each, 0);
  const labels = clamp(need.labels, 116, 300), inLanes = count <= 3 && free - Math.min(total, shards * 66) - labels >= 150 * count + 100;
  const narrow = clamp((free - 366 - shards * SHARD) / Math.max(1, count), 15, 26), lanes = inLanes ? 0 : narrow * count + 18;
  const fewest = inLanes ? 150 * count + 100 : width < PHONE ? 170 : 200, most = inLanes ? 430 * count : 560;
  const words = clamp(inLanes ? need.words + 30 * count : need.words, fewest, most);
  const room = clamp(free - lanes - words - labels, shards * SHARD, Math.max(total, shards * SHARD)), rest = free - lanes - room;
  const journal = clamp(rest - fewest, 116, labels), wide = clamp(rest - journal, fewest, most);
  at = {width, height, overview, lane: inLanes ? wide / count : narrow, words: inLanes ? 0 : GUTTER + narrow * count + 4, shards: {}, journalWide: journal};
  at.journal = (inLanes ? GUTTER + wide : at.words + wide) + 14;
  let x = at.journal + journal;
  usedShards.forEach((shard, i) => {
    const wide = SHARD + (total > shards * SHARD ? (wanted[i] - SHARD) * Math.min(1, (room - shards * SHARD) / (total - shards * SHARD)) : 0), counted = wide > 90 ? 62 : 6;
    const cell = clamp(Math.floor((wide - counted) / Math.max(lengths[i], 1)), 5, 17);
    at.shards[shard] = {x, wide, cell, counted: counted > 6, most: Math.max(1, Math.floor((wide - counted) / cell))};
    x += wide;
  });
  at.whole = Math.max(x + 12 + overview, width);
  const scale = window.devicePixelRatio || 1, filler = document.getElementById("height");
  [canvas.width, canvas.height, canvas.style.width, canvas.style.height] = [width * scale, height * scale, width + "px", height + "px"];
  [filler.style.width, filler.style.height] = [at.whole + "px", Math.max(0, HEAD + ROWS * H + FOOT - height) + "px"];
}
const laneX = client => GUTTER + clients.indexOf(client) * at.lane + Math.min(16, at.lane / 2);
const rowY = row => HEAD + row * H - view.scrollTop + H / 2;
const rowAt = y => Math.floor((y - HEAD + view.scrollTop) / H);

function wideOf(text, font) {
  pen.font = `${font} ${ink.sans}`;
  return pen.measureText(text).width;
}
function write(text, x, y, color, wide = Infinity, font = "12.5px") {
  let shown = text;
  if (wideOf(text, font) > wide) {
    const keep = firstWhere(text.length, count => pen.measureText(text.slice(0, count + 1) + "…").width > wide);
    shown = keep > 0 ? text.slice(0, keep).replace(/[\s…]+$/, "") + "…" : "";
  }
  pen.fillStyle = color;
  pen.fillText(shown, x, y);
  return x + pen.measureText(shown).width;
}
function line(color, width, points, dash = []) {
  [pen.strokeStyle, pen.lineWidth] = [color, width];
  pen.setLineDash(dash);
  pen.beginPath();
  points.forEach(([x, y], i) => i ? pen.lineTo(x, y) : pen.moveTo(x, y));
  pen.stroke();
}
function arrow(color, y, from, to, dash = []) {
  const back = Math.sign(from - to) * 4;
  line(color, 1.2, [[from, y], [to, y]], dash);
  line(color, 1.2, [[to + back, y - 3.5], [to, y], [to + back, y + 3.5]]);
}
function shape(color, stroke, trace) {
  pen.beginPath();
  trace();
  pen.fillStyle = stroke ? ink.ground : color;
  if (stroke >= 0) pen.fill();
  if (stroke) { [pen.strokeStyle, pen.lineWidth] = [color, Math.abs(stroke)]; pen.setLineDash([]); pen.stroke(); }
}
/* A box and a disc: filled, or with a stroke of some width round the ground; a stroke below 0 leaves what is inside. */
const box = (x, y, wide, high, radius, color, stroke = 0) => shape(color, stroke, () => pen.roundRect(x, y, wide, high, radius));
const disc = (x, y, radius, color, stroke = 0) => shape(color, stroke, () => pen.arc(x, y, radius, 0, 7));

/* The mark of a row on its lane: writes are discs, reads are rings, queries are squares, and what applies entries is a wedge. */
function mark(row, x, y) {
  if (isHeading(row)) return;
  const op = opOf(row), color = col.group[row] < 0 ? ink.dim : hueOf(col.group[row]), state = stateOf(row);
  if (state && !["stale", "overwrote"].includes(state)) {
    disc(x, y, 6.5, ink.ground);
    line(ink[state], 2, [[x - 4, y - 4], [x + 4, y + 4]]);
    line(ink[state], 2, [[x - 4, y + 4], [x + 4, y - 4]]);
  } else if (op === "put") disc(x, y, commitInRow.has(row) ? 5 : 3.5, color);
  else if (op === "delete") { disc(x, y, 5, color, 2); line(color, 2, [[x - 3, y + 3], [x + 3, y - 3]]); }
  else if (op === "get") disc(x, y, 4.5, color, 2);
  else if (op === "query" || op === "gql") box(x - 4.5, y - 4.5, 9, 9, 2, state ? ink.stale : color, 2);
  else if (op === "commit") box(x - 5, y - 5, 10, 10, 3, ink.ink);
  else if (op === "settle" || op === "apply") shape(ink.dim, 0, () => { pen.moveTo(x - 4, y - 5.5); pen.lineTo(x + 6, y); pen.lineTo(x - 4, y + 5.5); });
  else disc(x, y, 3.5, ink.dim, op === "allocate_ids" ? 1.5 : 0);
}

/* The name of a test above its rows, with a line over it; and where the second index file begins to serve a line across. */
function headline(row, y) {
  if (isCut(row)) {
    box(14, y - 9, wideOf(col.label[row], "600 12.5px") + 8, 18, 4, groundOf(row));
    line(ink.accent, 2, [[14, y + H / 2 - 3], [at.whole - 14 - at.overview, y + H / 2 - 3]]);
    return write(col.label[row], 18, y, ink.accent, at.journal - 40, "600 12.5px");
  }
  line(ink.faint, 1.5, [[14, y - H / 2], [at.whole - 14 - at.overview, y - H / 2]]);
  return write(col.label[row], 18, y + 1, ink.ink, at.journal - 40, "600 12.5px");
}

/* The words of a row; gives where they end. They may reach over the lanes of others, of which nothing stands in the same row. */
function words(row, y) {
  if (isHeading(row)) return headline(row, y);
  const x = at.words || laneX(col.client[row]) + 13, end = at.journal - 26, state = stateOf(row), query = queryIn.get(row), bad = state && state !== "stale";
  const op = nameOf(row), label = short(col.label[row]), bold = "600 12.5px";
  const missed = query && query.ofKind ? `missed ${query.ofKind.toLocaleString("en")}` : "", result = missed && end - x < 250 ? "" : short(col.result[row]);
  const tail = missed && result ? ` · ${missed}` : missed;
  const tailWide = result || tail ? wideOf(result + tail, bold) + 14 : 0, whole = wideOf(op + label, "12.5px") + 20 + tailWide;
  if (!at.words && whole > at.lane - 30) box(x, y - 9, Math.min(whole, end - x), 18, 4, groundOf(row));
  let next = write(label, write(op, x, y, ink.dim, end - x) + 6, y, isOwn(row) ? ink.dim : ink.ink, Math.max(40, end - x - wideOf(op, "12.5px") - 6 - tailWide));
  if (result) next = write(result, next + 10, y, bad ? ink[state] : ink.dim, end - next, bad ? bold : "12.5px");
  return tail ? write(tail, result ? next : next + 10, y, ink.stale, end - next, bold) : next;
}
const groundOf = row => row === chosen ? ink.chosen : row === hovered || together.some(([start, end]) => start <= row && row <= end) ? ink.band : ink.ground;

/* What a row has in the journal, and what joins it with its lane and the shards: a commit goes to them, a read comes from one of them. */
function journal(row, y, from) {
  const commit = commitOf.get(commitInRow.get(row)), x = at.journal + 10, right = at.journal + at.journalWide - 14, op = opOf(row), stale = isStale(row);
  if (commit && commit.row === row) {
    const groups = commit.groups.slice(0, 3), last = Math.max(0, groups.length - 1) * 5;
    line(groups.length ? hueOf(groups[0]) : ink.dim, 1.25, [[from + 8, y], [x - 8, y]], [1, 3]);
    groups.forEach((group, i) => disc(x + i * 5, y, 5.5, hueOf(group)));
    if (!groups.length) disc(x, y, 4, ink.dim, 2);
    let next = write(String(commit.number), x + 12 + last, y, ink.ink, right - x, "600 12.5px");
    next = write(commit.groups.length > 1 ? many(commit.groups.length, "group") : short(groups.length ? run.groups[groups[0]][0] : "no write"), next + 7, y, ink.dim, right - next - 7);
    for (const group of commit.groups) {
      const {x: left, cell, most} = at.shards[run.groups[group][1]], place = sizeAt(row, run.groups[group][1]) - 1 - baseOf(row, run.groups[group][1]);
      if (place < most) line(hueOf(group), 1.25, [[next + 8, y], [left + place * cell, y]], [1, 3]);
    }
  } else if (col.place[row] >= 0 && (touchIn.has(row) || ["get", "query", "gql"].includes(op))) {
    arrow(ink.dim, y, x - 3, from + 8);
    write(`${touchIn.has(row) ? "touched at" : "place"} ${col.place[row]}`, x + 12, y, ink.dim, right - x);
  } else if (queryIn.has(row) && usedShards.length) arrow(stale ? ink.stale : ink.dim, y, at.shards[usedShards[0]].x - 6, from + 8, stale ? [] : [4, 3]);
  else if (op === "settle" || op === "apply") {
    const to = at.shards[op === "apply" ? strongIn.get(row)?.[0] : usedShards[0]];
    if (to) arrow(ink.dim, y, from + 8, to.x - 8, [4, 3]);
  }
}

/* The first entry of a shard that a row shows: where not all have room, some applied ones and those behind them. */
function baseOf(row, shard) {
  const {most} = at.shards[shard], step = Math.ceil(most / 2);
  return run.entries[shard].length <= most ? 0 : Math.max(0, (Math.ceil(edgeAt(row, shard) / step) - 1) * step);
}

/* The entries of a shard around one row: solid where they wait, pale where they are applied, and the edge between. */
function entriesOf(shard, row, y) {
  const {x, cell, most, counted} = at.shards[shard], entries = run.entries[shard], top = y - H / 2, base = baseOf(row, shard), query = queryIn.get(row);
  const now = edgeAt(row, shard), was = edgeAt(row - 1, shard), count = countsIn.get(row)?.[0][shard], committed = sizeAt(row, shard), wide = cell - (cell > 7 ? 3 : 1);
  const end = Math.min(committed, base + most), edgeX = count => x + (Math.max(base, Math.min(count, base + most)) - base) * cell - (cell > 7 ? 2 : 1);
  let ringed = false;
  for (let i = base; i < end; i++) {
    const left = x + (i - base) * cell, bar = (from, waits) => { pen.globalAlpha = waits ? 1 : Number(ink.pale); pen.fillRect(left, from, wide, H / 2); };
    pen.fillStyle = hueOf(entries[i][1]);
    if (i < sizeAt(row - 1, shard)) bar(top, i >= was);
    bar(y, i >= now);
    pen.globalAlpha = 1;
    if (!query || i < count || entries[i][0] > col.known[row] || !changes(query, ...entries[i])) continue;
    box(left - 1.5, y - 6.5, wide + 3, 13, 3.5, ink.stale, -2);
    ringed = true;
  }
  if (committed) line(ink.ink, 1.5, [[edgeX(was), top], [edgeX(was), y], [edgeX(now), y], [edgeX(now), top + H]]);
  if (counted && committed && (count !== undefined || now !== was)) {
    const shown = count ?? now;
    write(committed > 999 ? `${shown} + ${committed - shown}` : `${shown} of ${committed}`, x + Math.min(entries.length, most) * cell + 6, y, ringed ? ink.stale : ink.dim, 54, "11px");
  }
}

/* An arc from the end of a row's words to the journal's mark of a commit in another row. */
function arc(row, from, number, color, shift) {
  const y = rowY(row), to = rowY(commitOf.get(number).row), x = at.journal + 10, turn = x - 12 - shift, bend = Math.sign(to - y) * Math.min(12, Math.abs(to - y) / 2);
  shape(color, -1.5, () => {
    pen.moveTo(Math.min(from + 8, turn - 12), y);
    pen.lineTo(turn - 12, y);
    pen.quadraticCurveTo(turn, y, turn, y + bend);
    pen.lineTo(turn, to - bend);
    pen.quadraticCurveTo(turn, to, x - 8, to);
  });
  arrow(color, to, x - 9, x - 8);
}

function lanes(first, last) {
  const bottom = Math.min(at.height, rowY(ROWS - 1) + H / 2);
  for (const client of clients) line(ink.faint, 1, [[laneX(client), HEAD], [laneX(client), bottom]]);
  line(ink.faint, 2, [[at.journal + 10, HEAD], [at.journal + 10, bottom]]);
  for (const span of spans) if (span.last >= first && span.first < last) {
    pen.globalAlpha = span.end === "rollback" || span.end === "open" ? 0.25 : 0.55;
    box(laneX(span.client) - 2, rowY(span.first), 4, (span.last - span.first) * H, 2, ["conflict", "expiry"].includes(span.end) ? ink.conflict : ink.ink);
  }
  pen.globalAlpha = 1;
}

function head() {
  box(0, 0, at.whole, HEAD - 6, 0, ink.ground);
  const y = 22;
  write("line", 18, y, ink.dim, GUTTER, "11.5px");
  clients.forEach(client => write(at.words ? String(client) : `client ${client}`, laneX(client) - (at.words ? 3 + 3 * (client > 9) : 5), y, ink.ink, 80, `600 ${at.lane < 20 ? 10.5 : 12.5}px`));
  if (at.words) write("clients", at.words, y, ink.ink, 60, "600 12.5px");
  write("journal", at.journal + 4, y, ink.ink, at.journalWide, "600 12.5px");
  usedShards.forEach(shard => write(at.shards[shard].wide > 60 ? `shard ${shard}` : String(shard), at.shards[shard].x, y, ink.ink, at.shards[shard].wide, "600 12.5px"));
  if (at.shards[usedShards[0]]?.wide <= 60) write("shards", at.journal + 62, y, ink.dim, 60);
  line(ink.faint, 1, [[0, HEAD - 6.5], [at.whole, HEAD - 6.5]]);
}

/* The whole run at the right edge: how many entries wait, what was found, and what is in view. */
function overview() {
  if (!at.overview) return;
  const left = at.width - at.overview, high = at.height, per = ROWS / high;
  box(left, 0, at.overview, high, 0, ink.panel);
  const waits = Array.from({length: Math.ceil(high)}, (_, y) => usedShards.reduce((sum, shard) => sum + sizeAt(Math.floor(y * per), shard) - edgeAt(Math.floor(y * per), shard), 0));
  const most = Math.max(1, ...waits);
  pen.fillStyle = ink.faint;
  waits.forEach((count, y) => pen.fillRect(left + 8, y, count / most * 30, 1));
  for (const [rows, color, x] of ["stale", "missing", "conflict", "overwrote", "wrong"].map((state, i) => [findings[state], ink[state], 8 + 10 * Math.min(i, 2)]).concat([[found, ink.accent, 42]])) {
    const ticks = new Map();
    for (const row of rows || []) ticks.set(Math.floor(row / per), (ticks.get(Math.floor(row / per)) || 0) + 1);
    const full = Math.max(...ticks.values());
    pen.fillStyle = color;
    for (const [y, count] of ticks) { pen.globalAlpha = 0.35 + 0.65 * count / full; pen.fillRect(left + x, Math.min(high - 2, y), 9, 2); }
  }
  pen.globalAlpha = 1;
  const top = view.scrollTop / (ROWS * H + HEAD + FOOT) * high;
  box(left + 3, top, at.overview - 7, Math.max(14, high * high / (ROWS * H + HEAD + FOOT)), 4, ink.dim, -1.5);
  line(ink.faint, 1, [[left, 0], [left, high]]);
}

function paint() {
  waiting = 0;
  const scale = window.devicePixelRatio || 1, first = Math.max(0, rowAt(HEAD)), last = Math.min(ROWS, rowAt(at.height) + 1), matching = found && new Set(found);
  pen.setTransform(scale, 0, 0, scale, 0, 0);
  box(0, 0, at.width, at.height, 0, ink.ground);
  pen.setTransform(scale, 0, 0, scale, -view.scrollLeft * scale, 0);
  pen.textBaseline = "middle";
  for (const [start, end] of together) if (end >= first && start < last) {
    box(4, rowY(start) - H / 2 + 1, at.journal - 10, (end - start + 1) * H - 2, 5, ink.band);
    box(4, rowY(start) - H / 2 + 1, 2.5, (end - start + 1) * H - 2, 1, ink.dim);
  }
  for (const row of [hovered, chosen]) if (row >= first && row < last) box(14, rowY(row) - H / 2 + 1, at.whole - 20 - at.overview, H - 2, 5, row === chosen ? ink.chosen : ink.band);
  lanes(first, last);
  const ends = new Map();
  for (let row = first; row < last; row++) {
    const y = rowY(row);
    pen.globalAlpha = matching && !matching.has(row) ? 0.3 : 1;
    if (row === wrongRow) box(14, y - H / 2 + 1, 3, H - 2, 1, ink.wrong);
    const number = isHeading(row) ? "" : String(col.line[row]);
    write(number, GUTTER - 12 - wideOf(number, "11.5px"), y, row === chosen ? ink.ink : ink.dim, GUTTER, "11.5px");
    ends.set(row, words(row, y));
    mark(row, laneX(col.client[row]), y);
    journal(row, y, ends.get(row));
    pen.globalAlpha = 1;
    usedShards.forEach(shard => entriesOf(shard, row, y));
  }
  for (const [row, [number]] of wayIn) {
    if (commitOf.has(number) && row >= first && commitOf.get(number).row < last) arc(row, ends.get(row) ?? at.journal - 60, number, ink.conflict, row % 3 * 4);
  }
  for (const row of new Set([chosen, hovered])) if (queryIn.has(row)) {
    for (const {number, ofKind} of missedBy(row, 40)) if (ofKind) arc(row, ends.get(row) ?? at.journal - 60, number, ink.stale, 0);
  }
  head();
  pen.setTransform(scale, 0, 0, scale, 0, 0);
  overview();
}
const repaint = () => { waiting ||= requestAnimationFrame(paint); };
