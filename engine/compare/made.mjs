/** Traces, plans and debugger commands made at random. */

/** @typedef {import("./draw.mjs").Draw} Draw */

const START = 65535;

/**
 * A trace of replicas that insert and delete in turn and see all before; one in three has a wrong list or count.
 * @param {Draw} draw
 */
export function trace(draw) {
    const replicas = 1 + draw.below(5);
    const start = Array.from({ length: draw.below(6) }, (_, i) => [START, i]);
    const counts = Array(replicas).fill(0);
    let list = [...start];
    const events = [];
    for (let left = draw.below(30); left > 0; left--) {
        const replica = draw.below(replicas);
        const event = { replica, kind: draw.once(3) ? "read" : "edit", seen: [...counts] };
        if (event.kind === "edit" && list.length > 0 && draw.once(2)) {
            event.delete = list.splice(draw.below(list.length), 1);
        } else if (event.kind === "edit") {
            const place = draw.below(list.length + 1);
            list.splice(place, 0, [replica, counts[replica]]);
            event.insert = [[replica, counts[replica], place]];
        }
        event.list = [...list];
        if (draw.once(60)) event.list.reverse();
        if (draw.once(60)) event.list.pop();
        if (draw.once(60)) event.seen[replica] += 1;
        counts[replica] += event.kind === "edit" ? 1 : 0;
        events.push(event);
    }
    return Buffer.from(JSON.stringify({ replicas, start, events }));
}

const TEXTS = ["", "a", "xy", 'q"q', "é", "😀", "line\nend", "\\", "e\u0301"];

/**
 * A plan of up to six clients for one worker, or for more where `workers` says so.
 * @param {Draw} draw
 */
export function plan(draw, workers = 1) {
    const clients = 1 + draw.below(6);
    const action = () => ({ at: draw.below(12), ...(draw.once(2) ? { delete: draw.below(4) } : {}), ...(draw.once(4) ? {} : { insert: draw.of(TEXTS) }) });
    const typing = Array.from({ length: clients }, () => Array.from({ length: draw.below(8) }, action));
    const more = draw.once(4) ? { present: draw.below(clients + 1) } : {};
    return Buffer.from(JSON.stringify({ clients, workers, start: draw.of(["", "hello", "a😀b", "0123456789"]), typing, ...more }));
}

const COMMANDS = [
    ...["run", "step 1", "step 5", "step 1000000", "back 1", "back 7", "back 1000000", "break 3", "break 0", "clear 3", "unwatch", "where", "show", "watch server"],
    ...["watch doc 0", "watch doc 1", "watch state 0", "watch state 63", "", "step", "jump 3", "break -1", "break 99999999999999999999", "step 1 2", " show", "show "],
];

/**
 * Commands of the debugger, one on a line; some are wrong.
 * @param {Draw} draw
 */
export function commands(draw) {
    return Array.from({ length: 3 + draw.below(20) }, () => `${draw.of(COMMANDS)}\n`).join("");
}

/** Lists and objects in one another, so deep: of each form whole, without an end, and in a member. */
export function nested(depth) {
    const lists = "[".repeat(depth);
    const objects = '{"a":'.repeat(depth);
    return [lists, `${lists}${"]".repeat(depth)}`, `${objects}1${"}".repeat(depth)}`, objects, `{"events":${lists}${"]".repeat(depth)}}`];
}
