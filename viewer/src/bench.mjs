// The page's one state, and what follows from a change of it: the engine is asked for the steps of the text, once for a burst of
// changes, and for the verdicts when nothing has changed for a while.

import { conformCall, isWordy, readAnswer, wordsOf } from "../../common/conformance.mjs";
import { followLines } from "./follow.mjs";
import { causeOf, readFault } from "../../common/faults.mjs";
import { areNotes, notedPlace, notesIn } from "../../common/noted.mjs";
import { lineOf } from "../../common/numbering.mjs";
import { headsAt } from "../../common/places.mjs";
import { Port } from "../../common/printed.mjs";
import { otherOrder } from "./order.mjs";
import { lastTransform, otherLine } from "./reason.mjs";
import { outlineOf, textUpTo } from "../../common/outline.mjs";
import { partsOf } from "../../common/told.mjs";
import { decidedAt, lineOfTie, withTie } from "./tie.mjs";
import { caretBehind, documentNow, emptyState, isAnswered, reduce, shownPlace } from "./state.mjs";

/** After how many milliseconds without a change the verdicts are asked for, and how often the time of a run is added to that. */
const STILL = 250;
const RUNS = 4;

/** After how many milliseconds an answer that is of an old text is not waited for any longer. */
const PATIENCE = 1500;

/** After how many milliseconds without an answer the page says so, and how often the time of the last run is added to that. */
const LATE = 3000;

const textIn = (bytes) => new TextDecoder().decode(bytes);

/** A schedule, and behind a line %% the lines of a port, or notes. */
const besideText = (text, port) => `${text}\n%%\n${port.join("\n")}\n`;

/* The note that an answer of conform is about; undefined where it is about none. */
const noteOf = (port, { answer }) => notesIn(port).find(({ at }) => answer?.verdict === "differs" && answer.at === at);

/** A text's fault, of what the dispatcher has of it: { line, column, kind, cause }, line 0 where it is of none, column 0 where none is given. */
export function faultOf({ fault, errors }) {
  const said = readFault(fault);
  if (said !== null) return { line: said.line, column: said.column ?? 0, kind: said.fault, cause: causeOf(said) };
  return { line: 0, column: 0, kind: errors.trim(), cause: "" };
}

/* The line of the refused instruction, from 1, and why; null where none is refused. */
const refusedAt = ({ stop }, text, reason) => (stop && reason ? { line: lineOf(stop.at, text), reason } : null);

/**
 * @typedef {object} Asked an engine: see `Engine`
 * @property {() => Promise<void>} load
 * @property {(text: string) => Promise<object>} steps
 * @property {(words: string[], input: Uint8Array) => Promise<{ status: number, output: Uint8Array, errors: string }>} ask
 * @property {() => Asked} beside
 * @property {(reason?: string) => void} giveUp
 */

export class Bench {
  /** @type {import("./state.mjs").State} */
  state = emptyState();
  /** @type {Asked | null} */
  engine = null;
  #session = null; // what the lines that the engine printed last have led to
  #asked = null; // the text that was asked for last
  #isAsking = false;
  #askedAt = null; // since when the engine works on it
  #waiting = []; // what was typed into a document that is not known yet
  #settlers = [];
  #quiets = 0;
  #judge = null;
  #other = null; // the engine that performs the debugger's commands, and lists sessions
  #sparse = null; // the lines of a port of which instructions without a line are not compared, as a text
  #judging = null; // what the verdicts are asked for: { text, port }
  #timer = null;
  #outlookTimer = null;
  #isLooking = false; // ahead: the program is asked what the documents become

  /**
   * @param {(action: import("./state.mjs").Action) => void} onChange called after each change
   * @param {() => Promise<void>} pause lets the page do other things
   */
  constructor(onChange, pause) {
    this.onChange = onChange;
    this.pause = pause;
  }

  /** @param {Asked} engine one that is loaded */
  use(engine) {
    this.engine = engine;
    this.#judge = engine.beside();
    this.#other = engine.beside();
    this.#follow();
  }

  /** @param {import("./state.mjs").Action} action */
  dispatch(action) {
    if (action.do === "type" && !documentNow(this.state, action.client)) {
      this.#waiting.push(action);
      if (this.isBusy) this.dispatch({ do: "select", ...caretBehind(action), isPut: true });
      else this.#typeWaiting();
      return;
    }
    this.state = reduce(this.state, action);
    this.onChange(action);
    this.#giveUpOld();
    this.#endOldJudging();
    this.#follow();
    this.#judgeSoon();
    this.#lookAheadSoon();
  }

  get isBusy() {
    return this.#isAsking || this.#isToAsk();
  }

  #isToAsk() {
    const { text, session } = this.state;
    return this.engine !== null && this.#asked !== text && (text !== "" || session !== null);
  }

  /** When the engine has answered all changes. */
  async settled() {
    if (this.isBusy) await new Promise((done) => this.#settlers.push(done));
  }

  /** What the program answers to words and an input, off the state. */
  ask(words, input) {
    return this.engine.ask(words, typeof input === "string" ? new TextEncoder().encode(input) : input);
  }

  /** What conform answers to what a user saw of a participant's document at the place; null where nothing can be compared. */
  async askNote(who, document) {
    const at = notedPlace(this.state.session, who, shownPlace(this.state));
    const { text, port } = reduce({ ...this.state, port: null }, { do: "note", who, document });
    const ask = (words, input) => this.ask(words, input);
    return port && this.#explained(await this.#conformed(text, port, ask), { at, who, document }, ask);
  }

  /** What the debugger answers to a command at the shown place; null: what it begins with. The page goes where that led. */
  async command(line) {
    await this.settled();
    const shown = this.#debugged();
    await this.#other.load();
    const answer = await this.#other.debug(shown, line);
    if (this.state.text === shown.text && answer.place !== shownPlace(this.state)) this.dispatch({ do: "go", place: answer.place });
    return answer;
  }

  /** What the last word of the debugger's line may go on with; nothing while the text is not answered. */
  async completions(line) {
    if (!isAnswered(this.state) || this.isBusy) return [];
    await this.#other.load();
    return (await this.#other.complete(this.#debugged(), line)).words;
  }

  /* What the debugger is to be over. */
  #debugged() {
    const { text, port } = this.state;
    if (!isAnswered(this.state)) throw new Error("the text has a fault: mend it first");
    return { text, port, isSparse: areNotes(port) || this.isSparse(port), place: shownPlace(this.state) };
  }

  /** Ends a command that takes long; the debugger begins anew with the next one. */
  endCommand() {
    this.#other.giveUp("it was ended");
  }

  /** See `Dispatcher.every`. */
  async every(words) {
    await this.#other.load();
    return (await this.#other.every(words)).sessions;
  }

  /** Ends an engine that does not answer. The next change starts it again. */
  stop() {
    this.engine.giveUp("it was stopped");
  }

  /** Lets everything through that is under way at the place, until all is quiet there. It is undone as one. */
  async quiet() {
    const tag = `quiet ${this.#quiets++}`;
    for (let round = 0; round < 16; round++) {
      await this.settled();
      const { session, fault } = this.state;
      if (!session || fault) return;
      const place = shownPlace(this.state);
      const heads = session.members.map(({ number }) => headsAt(session, number, place));
      const takes = heads.flatMap(({ up }) => up ?? []);
      const instructions = takes.length ? takes : heads.flatMap(({ down }) => down);
      if (instructions.length === 0) return;
      this.dispatch({ do: "play", instructions, tag });
    }
  }

  /* One question for a burst of changes: what is typed while the engine answers is asked for when it has. */
  async #follow() {
    if (this.#isAsking || !this.#isToAsk()) return;
    this.#isAsking = true;
    try {
      while (this.#isToAsk()) {
        this.#asked = this.state.text;
        await this.#answer(this.#asked);
        this.#typeWaiting();
      }
    } catch (fault) {
      this.#asked = this.state.text;
      this.dispatch({ do: "fault", fault: { line: 0, column: 0, kind: "the engine failed", cause: fault.message }, took: 0 });
    } finally {
      this.#isAsking = false;
    }
    for (const done of this.#settlers.splice(0)) done();
    this.#judgeSoon();
    this.#lookAheadSoon();
  }

  #typeWaiting() {
    for (const action of this.#waiting.splice(0)) {
      if (documentNow(this.state, action.client) || this.#isToAsk()) this.dispatch(action);
      else this.dispatch({ do: "notice", notice: this.state.fault ? "The text has a fault: mend it before you type into a document." : "There is no such document here." });
    }
  }

  /* A text that the engine works on for long is given up when it has become another one. */
  #giveUpOld() {
    const isOld = this.#askedAt !== null && this.#asked !== this.state.text;
    if (isOld && performance.now() - this.#askedAt > PATIENCE) this.engine.giveUp();
  }

  /* Verdicts of an old text are not waited for, and take no time from the engine. */
  #endOldJudging() {
    if (!this.#judging || this.#judging.text === this.state.text) return;
    this.#judging = null;
    this.#judge.giveUp();
  }

  async #steps(text) {
    await this.engine.load();
    this.#askedAt = performance.now();
    const late = setTimeout(() => this.dispatch({ do: "late" }), LATE + RUNS * this.state.took);
    try {
      return await this.engine.steps(text);
    } catch (fault) {
      if (text === this.state.text) throw fault;
      return null;
    } finally {
      clearTimeout(late);
      this.#askedAt = null;
    }
  }

  async #answer(text) {
    const told = await this.#steps(text);
    if (told === null) return;
    const { keep, rest, refusal, took } = told;
    if (rest === null) {
      this.dispatch({ do: "fault", fault: faultOf(told), took });
      return;
    }
    this.#session = await followLines(this.#session, { keep, rest }, this.pause);
    this.dispatch({ do: "answer", text, session: this.#session, refusal: refusedAt(this.#session, text, refusal), took });
  }

  /** Says of a port's lines that instructions without a line are not compared. @param {string[]} port */
  takeAsSparse(port) {
    this.#sparse = port.join("\n");
  }

  /** Whether that was said of these lines. @param {string[] | null} port */
  isSparse(port) {
    return port !== null && port.join("\n") === this.#sparse;
  }

  /* What conform answers to a port's lines; its words where they say more than its verdict. */
  async #conformed(text, port, ask) {
    const call = conformCall(areNotes(port) || this.isSparse(port));
    const input = besideText(text, port);
    const answer = readAnswer(textIn((await ask([...call, "--json"], input)).output));
    return { answer, words: answer && isWordy(answer) ? wordsOf(answer, textIn((await ask(call, input)).output)) : [] };
  }

  #isToJudge() {
    const { text, port, beside, verdict } = this.state;
    if (!this.engine || this.isBusy || !isAnswered(this.state)) return false;
    if (this.#judging?.text === text && this.#judging.port === port) return false;
    return verdict === null || (port !== null && beside === null);
  }

  #judgeSoon() {
    clearTimeout(this.#timer);
    if (this.#isToJudge()) this.#timer = setTimeout(() => this.#judgeNow(), STILL + RUNS * this.state.took);
  }

  /* The verdicts have a worker of their own. */
  async #judgeNow() {
    if (!this.#isToJudge()) return;
    if (this.#judging) this.#judge.giveUp();
    const { text, port, session } = this.state;
    const asked = { text, port };
    this.#judging = asked;
    const ask = (words, input) => this.#judge.ask(words, new TextEncoder().encode(input));
    const isOld = () => this.#judging !== asked || this.state.text !== text || this.state.port !== port || !isAnswered(this.state);
    const tell = (verdict) => isOld() || this.dispatch({ do: "verdict", text, verdict });
    try {
      await this.#judge.load();
      const told = port && (await this.#conformed(text, port, ask));
      const shown = told && areNotes(port) && !isOld() ? await this.#explained(told, noteOf(port, told), ask) : told;
      if (shown && !isOld()) this.dispatch({ do: "beside", text, beside: new Port(session, port, shown, this.isSparse(port)) });
      const judged = textIn((await ask(["check", "--json"], text)).output);
      tell(judged === "" ? { fault: "not judged" } : JSON.parse(judged));
    } catch (fault) {
      tell({ fault: `not judged: ${fault.message}` });
    }
    if (this.#judging !== asked) return;
    this.#judging = null;
    this.#judgeSoon();
  }

  #isToLookAhead() {
    const { text, outlook, session, isReasonShown } = this.state;
    if (!this.engine || this.isBusy || this.#isLooking || !session || !isAnswered(this.state)) return false;
    return outlook?.text !== text || outlook.place !== shownPlace(this.state) || (isReasonShown && outlook.reason === undefined);
  }

  #lookAheadSoon() {
    clearTimeout(this.#outlookTimer);
    if (this.#isToLookAhead()) this.#outlookTimer = setTimeout(() => this.#lookAhead(), STILL + this.state.took);
  }

  /* Whether the documents must agree at the shown place, and to what. Where that is not known, nothing is shown. */
  async #lookAhead() {
    if (!this.#isToLookAhead()) return;
    this.#isLooking = true;
    const { text, isReasonShown } = this.state;
    const place = shownPlace(this.state);
    const outlook = { text, place, lines: [], reason: isReasonShown ? null : undefined };
    try {
      await this.#judge.load();
      const ask = (words, input) => this.#judge.ask(words, new TextEncoder().encode(input));
      outlook.lines = await this.#outlookAt(place, ask);
      if (isReasonShown) outlook.reason = await this.#reasonAt(place, ask);
    } catch {
      // the judge was given up: it is of an old text, or does not answer
    }
    this.#isLooking = false;
    this.dispatch({ do: "outlook", outlook });
  }

  /* The verdict of a place, in lines. */
  async #outlookAt(place, ask) {
    const { text, outline } = this.state;
    const front = textUpTo(text, outline, place);
    return partsOf(textIn((await ask(["explain"], front)).output), place, outlineOf(front).cut !== null).verdict;
  }

  /* The last transform up to a place: what conform says of a port that has another value there. */
  async #reasonAt(place, ask) {
    const last = lastTransform(this.state.session, place);
    return last === 0 ? { place: 0, rule: "", given: [] } : { place: last, ...(await this.#conformAt(last, otherLine(this.state.session, last), ask)) };
  }

  /* What conform answers to a port's line at a place, as a value. */
  async #conformAt(place, line, ask) {
    const { text, outline } = this.state;
    const { output } = await ask(["conform", "--sparse", "--json"], besideText(textUpTo(text, outline, place), [line]));
    return JSON.parse(textIn(output));
  }

  /* What conform answers on a note, with what leads to what was seen instead: a tie broken the other way, the other order at the server. */
  async #explained(told, note, ask) {
    if (!note || told.answer?.verdict !== "differs") return told;
    const { state } = this;
    const { answer, words } = await this.#withTie(told, note, ask);
    const becomes = async (text) => {
      const { stopped, document } = JSON.parse(textIn((await ask(["explain", "--json"], text)).output));
      return stopped === undefined ? document : undefined;
    };
    const order = isAnswered(state) && note.at > 0 ? await otherOrder(state, note, becomes) : null;
    return { answer: { ...answer, ...(order && { order }) }, words };
  }

  /* The same with what it says of a tie alone. */
  async #withTie(told, note, ask) {
    const { session } = this.state;
    const place = decidedAt(session, note);
    if (place === 0) return told;
    const call = await this.#reasonAt(place, ask);
    const line = lineOfTie(session, note, call);
    const answer = line === null ? null : await this.#conformAt(call.place, line, ask);
    return answer?.note ? withTie(told, answer.note, session, note, call) : told;
  }

  /** The verdict of the shown place, and what led to the texts there, or to that from which a noted one differs first; nothing where the text has a fault. */
  async sayHere() {
    const { session, port, beside } = this.state;
    const place = shownPlace(this.state);
    const ask = (words, input) => this.ask(words, input);
    if (!isAnswered(this.state)) return { outlook: [], reason: null };
    const note = beside && noteOf(port, beside);
    const reason = this.#reasonAt(note ? decidedAt(session, note) || note.at : place, ask);
    return { outlook: await this.#outlookAt(place, ask), reason: await reason };
  }
}
