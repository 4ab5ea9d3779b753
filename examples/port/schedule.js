/* Reads the text of a schedule that otbench accepts. */

/* { clients, present, start, instructions }, an instruction being { word, client, edit }. Lines from "%%" on are not the schedule's. */
export function readSchedule(text) {
  if (text.startsWith("\ufeff")) throw new Error("the schedule begins with a byte order mark: write it without");
  const schedule = { clients: 0, present: null, start: "", instructions: [] };
  for (const raw of text.split("\n")) {
    const line = withoutBlanks(raw.replace(/\r$/, ""));
    if (line === "%%") break;
    if (line !== "" && line[0] !== ";") readLine(schedule, line);
  }
  if (schedule.present === null) schedule.present = schedule.clients;
  return schedule;
}

/* Without blanks at both ends. (The regular expression for those at the end takes the square of a run of blanks, as a long start text may have.) */
function withoutBlanks(line) {
  let [from, to] = [0, line.length];
  while (from < to && " \t".includes(line[from])) from++;
  while (to > from && " \t".includes(line[to - 1])) to--;
  return line.slice(from, to);
}

function readLine(schedule, line) {
  const [, word, rest] = /^(\S+)[ \t]*([^]*)$/.exec(line);
  if (word === "clients") schedule.clients = Number(rest);
  else if (word === "present") schedule.present = Number(rest);
  else if (word === "start") schedule.start = JSON.parse(rest);
  else if (word === "read-server") schedule.instructions.push({ word });
  else if (word === "edit") {
    const [, client, operation] = /^(\d+)[ \t]+([^]*)$/.exec(rest);
    schedule.instructions.push({ word, client: Number(client), edit: JSON.parse(operation) });
  } else schedule.instructions.push({ word, client: Number(rest) });
}
