/* What a row's story is, in sentences: for the panel and for the tip. */
const many = (count, one, more = one + "s") => `${count.toLocaleString("en")} ${count === 1 ? one : more}`;
const written = commit => commit.writes.length === 0 ? "no write" :
  `${commit.writes[0][1] ? "delete" : "put"} ${commit.writes[0][0]}${commit.writes.length > 1 ? `, and ${many(commit.writes.length - 1, "more write")}` : ""}`;
const byWhom = commit => `client ${col.client[commit.row]}, line ${col.line[commit.row]}`;

/* Of the entries of a commit: when each was first shown to be applied. */
function appliedSentences(commit) {
  return [...new Set(commit.groups.map(group => run.groups[group][1]))].map(shard => {
    const entries = run.entries[shard], last = firstWhere(entries.length, at => entries[at][0] > commit.number) - 1;
    const row = firstWhere(ROWS, at => edgeAt(at, shard) > last);
    return row === ROWS ? `Nothing in this run shows it applied on shard ${shard}.` : `Applied on shard ${shard}, as line ${col.line[row]} (${opOf(row)}) is the first to show.`;
  });
}

function queryStory(row) {
  const query = queryIn.get(row), entries = countsIn.get(row)[0].reduce((sum, count) => sum + count, 0), missed = query.ofKind + query.others;
  return [["", `Answered from what was applied: ${entries} of ${many(entries + missed, "entry", "entries")} committed before it.`],
    query.ofKind ? ["stale", `It missed ${many(query.ofKind, "committed write")} of ${run.scopes[query.scope][0]}, and would have found otherwise:`] : missed ? ["", "What it missed changes nothing in its results."] : ["good", "It missed nothing."],
    ...(query.meanwhile ? [["", `${many(query.meanwhile, "more entry was", "more entries were")} committed in the same round, at the same time.`]] : [])];
}

function conflictStory(row) {
  const [number, group] = wayIn.get(row) || [], commit = commitOf.get(number), touch = spanOf(row)?.touches.find(it => it[1] === group);
  if (!number) return [["conflict", "The transaction has ended, and nothing of it is written."]];
  const since = touch ? ` after place ${touch[2]}, at which this transaction had touched it in line ${col.line[touch[0]]}` : "";
  return [["conflict", `Commit ${number}${commit ? ` (${byWhom(commit)})` : ""} wrote ${run.groups[group][0]}${since}.`], ["", "Nothing of the transaction is written. Begun again, it reads what the other wrote."]];
}

function commitStory(row, commit) {
  const [over] = wayIn.get(row) || [], told = over ? [["conflict", `Commit ${commit.number} wrote over commit ${over} (${byWhom(commitOf.get(over))}), which client ${col.client[row]} had not seen.`],
    ["", "It had read the entity before that commit. In a transaction this would be a conflict."]] : [["", `Commit ${commit.number}: ${written(commit)}.`]];
  return [...told, ...appliedSentences(commit).map(text => ["", text])];
}

/* The sentences of a row, each with the name of its colour. */
function story(row) {
  const state = run.states[col.state[row]], commit = commitOf.get(commitInRow.get(row)), op = opOf(row), touch = touchIn.get(row), place = col.place[row];
  const told = row === wrongRow ? [["wrong", "The auditor says that no legal run has this reply."]] : [], say = (text, tone = "") => told.push([tone, text]);
  const [shard, count] = strongIn.get(row) || [], span = spanOf(row), more = count - edgeAt(row - 1, shard);
  if (state === "conflict") told.push(...conflictStory(row));
  else if (state === "missing") say(`No index serves this query. ${missingIn.get(row)[0] ? "The entry that would:" : "Its names can't stand in an index file."}`, "missing");
  else if (state === "silent") say("No reply to this line is in the replies' file.");
  else if (state === "refused") say("Refused: nothing of it is written.");
  else if (queryIn.has(row)) told.push(...queryStory(row));
  else if (commit) told.push(...commitStory(row, commit));
  else if (op === "settle") say("Applied all that was committed, on each shard.");
  else if (op === "apply" && count !== undefined) say(`Shard ${shard} has applied ${count} of ${many(sizeAt(row, shard), "entry", "entries")}.`);
  else if (touch) say(`Touches ${run.groups[touch[0]][0]} at place ${touch[1]}: a commit of that group behind it will be a conflict.`);
  else if (place >= 0 && ["get", "query", "gql"].includes(op)) say(`Read from the journal at place ${place}: it sees ${place > 1 ? `commits 1 to ${place}` : place ? "commit 1" : "no commit"}.`);
  if (more > 0 && op !== "apply") say(`It first applied what waited on shard ${shard}: ${many(more, "entry", "entries")}.`);
  if (span) say(`The transaction of lines ${col.line[span.first]} to ${col.line[span.last]}: ${many(span.touches.length, "group")} touched, ${many(span.writes, "write")}, ${span.end === "open" ? "left open" : `ended by ${span.end}`}.`);
  return told;
}
