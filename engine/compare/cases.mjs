/**
 * What is tried: each case asks for the words and the input to be compared, and goes on with what the native program answered.
 *
 * @typedef {(name: string, words: string[], input?: Uint8Array | string) => Buffer} Ask compares; answers the native program's output
 */
import fs from "node:fs";
import path from "node:path";

import { Draw } from "./draw.mjs";
import { harmed } from "./harm.mjs";
import { commands, nested, plan, trace } from "./made.mjs";

const BEHIND = Buffer.from("\n%%\n");
const READS_TEXT = ["run", "check", "explain", "steps", "asm", "complete"];
const AS_JSON = ["run", "check", "explain"];

/**
 * One schedule, whole and harmed, under each subcommand that reads one.
 * @param {Ask} ask @param {string} name @param {Buffer} text @param {Draw} draw
 */
function schedule(ask, name, text, draw) {
    for (const word of ["run", "check", "explain"]) ask(name, [word], text);
    ask(name, ["check", "--all"], text);
    ask(name, ["complete"], text);
    for (const word of AS_JSON) ask(name, [word, "--json"], text);
    ask(name, ["steps", "--documents"], text);
    const lines = ask(name, ["steps"], text);
    ask(name, ["conform"], Buffer.concat([text, BEHIND, lines]));
    const wrong = Buffer.concat([text, BEHIND, harmed(draw, lines)]);
    for (const how of [[], ["--json"], ["--sparse"], ["--sparse", "--json"]]) ask(`${name} wrong port`, ["conform", ...how], wrong);
    const many = Buffer.concat([text, BEHIND, lines, BEHIND, text, BEHIND, harmed(draw, lines), BEHIND]);
    ask(`${name} many`, ["conform", "--many", ...(draw.once(2) ? ["--all"] : []), ...(draw.once(2) ? ["--json"] : [])], many);
    ask(`${name} many harmed`, ["conform", "--many"], harmed(draw, many));
    const image = ask(name, ["asm"], text);
    ask(name, ["dis"], image);
    ask(name, ["run", "--image"], image);
    ask(name, ["debug"], Buffer.concat([text, BEHIND, Buffer.from(commands(draw))]));
    ask(`${name} harmed`, [draw.of(READS_TEXT)], harmed(draw, text));
    ask(`${name} harmed`, [draw.of([...AS_JSON, "conform"]), "--json"], harmed(draw, text));
    ask(`${name} harmed`, [draw.of(["debug", "conform"])], harmed(draw, Buffer.concat([text, BEHIND, draw.once(2) ? lines : Buffer.from(commands(draw))])));
    const other = harmed(draw, image);
    ask(`${name} harmed image`, ["dis"], other);
    ask(`${name} harmed image`, ["run", "--image"], other);
    ask(`${name} harmed image`, ["run", "--image", "--json"], other);
    for (const bytes of [image, other]) ask(`${name} image`, ["explain", "--image"], bytes);
}

/**
 * A session made at random with this seed, and a trace and a plan.
 * @param {Ask} ask @param {number} seed
 */
export function generated(ask, seed) {
    const draw = new Draw(seed);
    const words = ["generate", "--seed", `${seed}`, "--clients", `${1 + draw.below(draw.once(8) ? 64 : 8)}`, "--instructions", `${draw.below(draw.once(8) ? 1500 : 250)}`];
    if (draw.once(4)) words.push("--open");
    if (draw.once(5)) words.push("--start", 'héllo 😀 "x"\\');
    if (draw.once(5)) words.push("--present", `${draw.below(3)}`);
    const name = `seed ${seed}`;
    schedule(ask, name, ask(name, words), draw);
    const told = trace(draw);
    for (const words of [["judge"], ["judge", "--json"], ["explain", "--trace"]]) {
        ask(name, words, told);
        ask(`${name} harmed`, words, harmed(draw, told));
    }
    const typed = plan(draw);
    ask(name, ["threads"], typed);
    for (const words of [["threads"], ["explain", "--plan"]]) ask(`${name} harmed`, words, harmed(draw, typed));
    if (seed % 10 === 0) ask(name, ["threads"], plan(draw, 2 + draw.below(7)));
}

/**
 * The schedules, images, traces and plans of a folder.
 * @param {Ask} ask @param {string} folder
 */
export function folder(ask, folder) {
    for (const file of fs.readdirSync(folder)) {
        const bytes = () => fs.readFileSync(path.join(folder, file));
        const draw = new Draw(file.length);
        if (file.endsWith(".ots")) schedule(ask, file, bytes(), draw);
        if (file.endsWith(".img")) for (const words of [["dis"], ["run", "--image"]]) ask(file, words, bytes());
        if (file.endsWith(".json")) for (const word of ["judge", "threads"]) ask(file, [word], bytes());
    }
}

const OPENING = "clients 1\n";

/**
 * Words that are and are not understood, empty inputs, and JSON that nests deep.
 * @param {Ask} ask
 */
export function corners(ask) {
    const subcommands = [...READS_TEXT, "debug", "dis", "judge", "conform", "threads", "generate"];
    const plain = [[], ["--help"], ["-h"], ["help"], ["--version"], ["-V"], ["nonsense"], ["--nonsense"], ["help", "nonsense"], ["help", "help"], [""], ["é"], ["run", "x"], ["run", "--image=1"], ["run", "--image", "--image"]];
    for (const words of plain) ask("words", words);
    for (const word of subcommands) for (const words of [["help", word], [word, "--help"], [word, "-h"], [word, "--"], [word, "--nonsense"], [word.slice(0, -1)]]) ask("words", words);
    for (const rest of [["--seed"], ["--seed", "x"], ["--seed", "-1"], ["--seed", `${2n ** 64n}`], ["--clients", "0"], ["--clients", "65"], ["--instructions", "100001"], ["--present", "9"], ["--start", "a\nb"], ["--start", "a".repeat(40001)], ["--start=", "--open"]])
        ask("words", ["generate", ...rest]);
    for (const rest of [[], ["--start", "xy"], ["--start", "\u{1F600}\\"], ["--letters", "2"], ["--join", "--clients", "3", "--edits", "1"], ["--inserts", "8", "--edits", "1"], ["--part", "2/3"], ["--part", "0/1"], ["--part", "1/"], ["--count"], ["--clients", "5"], ["--edits", "7"], ["--start", "123456789"], ["--seed", "1"], ["--open"]])
        ask("words", ["generate", "--every", ...rest]);
    for (const rest of [["--edits", "1"], ["--part", "1/1"], ["--join"], ["--count"]]) ask("words", ["generate", ...rest]);
    for (const word of subcommands) for (const input of ["", "\n", "\0", "\ufeff", "\xff", "%%", "\n%%\n", "a".repeat(70000)]) ask("bytes", [word], Buffer.from(input, "latin1"));
    for (const depth of [60, 126, 127, 128, 129, 1000, 100_000, 1_000_000]) {
        for (const json of nested(depth)) {
            ask(`${depth} deep`, ["judge"], json);
            ask(`${depth} deep`, ["threads"], json);
            ask(`${depth} deep`, ["run"], `${OPENING}edit 0 ${json}\n`);
            ask(`${depth} deep`, ["explain"], `${OPENING}start ${json}\n`);
            ask(`${depth} deep`, ["conform"], `${OPENING}edit 0 ["a"]\n%%\n${json}\n${json}\n`);
            ask(`${depth} deep`, ["conform"], `${OPENING}edit 0 ["a"]\n%%\n{"line":1,"x":${json}}\n`);
        }
    }
}
