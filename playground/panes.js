// The panes: a run, the flows, the search for a leak, two runs, the cycles of a controller and the report.
import { ask, trouble } from "./api.js";
import { at, button, fill, h, table } from "./dom.js";
import { place, prose } from "./prose.js";
import { flowPairs, globals, isLattice, twoRuns, words } from "./reading.js";
import { Stores } from "./stores.js";

// How many pairs are tried at each change of the text, and the largest budget.
const PAIRS = 100, MOST_BUDGET = 1000000;

/** What is said where the program didn't answer as a pane expects; `again` asks once more. */
export function complaint(answer, again = null) {
  const problem = trouble(answer);
  if (problem) {
    return [h("p", { class: "no", role: "alert" }, problem),
      again ? button("Ask again", again, { class: "again" }) : null];
  }
  const text = (answer.errors || answer.output).trimEnd(), refused = /^refused: (\d+) (\w+).*\n?/.exec(text);
  return [refused ? h("p", { class: "no", role: "alert" }, `Refused: ${refused[1]} ${refused[2]}.`) : null,
    prose(refused ? text.slice(refused[0].length) : text, () => {})];
}

/** Two runs side by side, a star in each row that differs. */
export function runsTable(runs) {
  const rows = (list) => list.map((row) => Object.assign([row.name || "the end", row.left, row.right,
    row.differs ? ["✱", h("span", { class: "worded" }, " differs")] : ""], { mark: row.differs ? "differs" : "" }));
  const heads = (what) => [what, "First run", "Second run", ""];
  const before = runs.before.length ? [h("h3", {}, "Before the runs"),
    table("Before the runs", heads("Variable"), rows(runs.before))] : [];
  return [...before, h("h3", {}, `${runs.observer} sees after the runs`),
    table(`What ${runs.observer} sees after the runs`, heads("Variable"), rows(runs.after))];
}

/** The variables of rows that differ, each with both of its words. */
function apart(rows, joint) {
  return rows.filter(({ name, differs }) => name && differs).map(({ name, left, right }, index) =>
    [index ? ", " : "", h("code", {}, name), ` ${joint} ${left} or ${right}`]);
}

/** What an observer sees of a leak, in a sentence. */
export const leakSentence = (runs) => [`An observer at ${runs.observer} sees `, apart(runs.after, "="),
  ", depending on ", apart(runs.before, "="), "."];

/** The panes that ask about the text. */
export class Panes {
  constructor(app) {
    this.app = app;
    const changed = () => app.live.later();
    this.store = new Stores(at("run-store"), ["Before the run"], changed);
    this.pair = new Stores(at("pair-stores"), ["First store", "Second store"]);
    // For each pane the request that it shows, and the one that it waits for.
    this.done = {};
    this.turns = {};
    at("run").prepend(button("Run", () => this.run(), { class: "main", id: "run-button" }),
      button("Go on from the end", () => this.goOn()));
    at("flows").prepend(button("List the flows", () => this.flows(), { class: "main", id: "flows-button" }));
    at("leak-form").append(button("Look for a leak", () => this.leak(), { class: "main", id: "leak-button" }));
    at("pair-stores").after(button("Compare", () => this.compare(), { class: "main", id: "pair-button" }));
    at("cycles-form").append(button("Drive", () => this.drive(), { class: "main", id: "cycles-button" }));
    at("files").addEventListener("change", (event) => this.takeFile(event.target.value));
    at("leak-form").addEventListener("change", changed);
    at("budget").addEventListener("input", () => {
      this.judgeBudget();
      changed();
    });
  }

  get body() {
    return { text: this.app.text, lattice: this.app.lattice };
  }

  /** The budget, or nothing where the field holds none. */
  get budget() {
    const text = at("budget").value.trim(), number = Number(text);
    return /^\d+$/.test(text) && number <= MOST_BUDGET ? number : null;
  }

  /** Says that the budget is none. */
  judgeBudget() {
    const isGood = this.budget !== null;
    at("budget").setAttribute("aria-invalid", String(!isGood));
    const text = isGood ? "" : `The budget must be a whole number from 0 to ${MOST_BUDGET.toLocaleString("en")}.`;
    if (at("budget-note").textContent !== text) at("budget-note").textContent = text;
    return isGood;
  }

  /** Whether the fields of a table and of the budget hold numbers; else they say what is wrong. */
  isReady(stores) {
    stores.judge();
    return this.judgeBudget() && !stores.faults.length;
  }

  /** The class of the observer, once the lattice has been read; if there is none, the result says so. */
  async observer(result) {
    await this.app.policy.read(this.app.lattice);
    const { observer } = this.app.policy;
    if (!observer) fill(at(result), h("p", { class: "no", role: "alert" }, "There is no observer: see the lattice."));
    return observer;
  }

  /** Shows the globals of the text. */
  refresh() {
    const list = globals(this.app.text);
    this.store.show(list, this.app.policy);
    this.pair.show(list, this.app.policy);
  }

  /** Forgets all results. */
  clear() {
    this.done = {};
    this.turns = {};
    this.large = "";
    this.store.clear();
    this.pair.clear();
    for (const name of ["run", "flows", "leak", "pair", "machine", "cycles"]) fill(at(`${name}-result`));
    this.judgeBudget();
  }

  /** Offers the store files that belong to the text; `base` is the name of its file without its end. */
  offer(files, base) {
    this.files = files;
    const names = Object.keys(files).filter((name) => name.endsWith(".toml") && !isLattice(files[name])
      && !name.includes("interface"));
    at("files-row").hidden = names.length === 0;
    fill(at("files"), h("option", { value: "" }, "choose a file"),
      names.map((name) => h("option", { value: name }, name)));
    at("cycles-lines").value = files[`${base}_day.txt`] ?? files["day.txt"] ?? "";
  }

  takeFile(name) {
    if (!name) return;
    this.store.take(0, this.files[name]);
    this.refresh();
    this.app.live.later();
  }

  /**
   * Asks for a pane; answers nothing where the answer isn't wanted any more. With a signal the request follows the
   * typing: then what the pane shows already isn't asked for again.
   */
  async ask(pane, request, body, signal) {
    const key = JSON.stringify([request, body]);
    if (signal && this.done[pane] === key) return null;
    const turn = this.turns[pane] = {};
    const isWanted = () => this.turns[pane] === turn && !signal?.aborted;
    const answer = await ask(request, body, isWanted, signal);
    if (!isWanted()) return null;
    this.done[pane] = trouble(answer) ? "" : signal ? key : `${key} `;
    return answer;
  }

  async run(signal) {
    if (!this.isReady(this.store)) {
      this.done.run = "";
      this.ended(null);
      return;
    }
    const { observer } = this.app.policy, again = () => this.run();
    const asked = { ...this.body, store: this.store.text(0), budget: this.budget };
    const answer = await this.ask("run", "run", asked, signal);
    if (answer) {
      const isOut = answer.status === 3 && !trouble(answer);
      this.ended(answer.status === 0 ? words(answer.output) : null, answer.status === 0 ? this.halted(answer)
        : isOut ? this.outOfBudget() : complaint(answer, again));
      if (answer.status !== 0) return;
    }
    if (!this.store.results || !observer) return;
    const view = await this.ask("view", "view", { ...asked, class: observer }, signal);
    if (view) fill(at("view-result"), this.view(view, observer));
  }

  /** Shows how a run has ended, and its words. */
  ended(results, ...said) {
    this.store.results = results;
    this.done.view = "";
    fill(at("run-result"), said);
    fill(at("view-result"));
    this.refresh();
  }

  halted(answer) {
    const count = /instructions: (\d+)/.exec(answer.errors);
    return h("p", {}, `The run halted${count ? ` after ${count[1]} instructions` : ""}.`);
  }

  outOfBudget() {
    return h("p", { class: "no" }, `Out of budget: the run hasn't halted after ${this.budget} instructions. `
      + "Give a larger budget, or look for a loop whose guard never becomes 0.");
  }

  /** What the observer sees of the end of the run. */
  view(answer, observer) {
    return [h("h3", {}, `An observer of class ${observer} sees`), answer.status === 0
      ? h("pre", { tabindex: "0", "aria-label": "The view" }, answer.output || "nothing") : complaint(answer)];
  }

  /** Makes the end of the run the start of the next one. */
  goOn() {
    if (!this.store.results) return;
    this.store.kept[0] = this.store.results;
    this.store.shown = "";
    this.ended(null);
    this.app.live.later();
  }

  async flows(signal) {
    const answer = await this.ask("flows", "flows", { ...this.body, profile: this.app.profile }, signal);
    if (!answer) return;
    if (answer.status !== 0) {
      fill(at("flows-result"), complaint(answer, () => this.flows()));
      return;
    }
    const pairs = flowPairs(answer.output);
    const chip = (name) => this.app.policy.chip(name);
    fill(at("flows-result"), pairs.length ? table("The flows", ["From", "To", "Verdict", "Steps"], pairs.map((pair) =>
      Object.assign([[pair.from, " ", chip(pair.fromClass)], [h("code", {}, pair.to), " ", chip(pair.toClass)],
        h("span", { class: pair.verdict === "allowed" ? "yes" : "no" }, pair.verdict), this.walk(pair)],
      { mark: pair.verdict === "refused" ? "differs" : "" })))
      : h("p", {}, "No flow joins two declared variables."));
  }

  walk(pair) {
    return h("details", {}, h("summary", {}, String(pair.count)), h("ol", { class: "walk" }, pair.walk.map((step) =>
      h("li", {}, `${step.from} to ${step.to} by `, h("code", {}, step.rule), ", ",
        place(step.read.line, step.read.column, (line, column) => this.app.program.go(line, column))))));
  }

  /** The request for a leak with the choices of the form; while it follows the typing it tries few pairs. */
  search(signal) {
    const tries = Number(at("leak-tries").value), { observer } = this.app.policy;
    return { ...this.body, ...(at("leak-only").checked && observer ? { class: observer } : {}), budget: this.budget,
      tries: signal ? Math.min(PAIRS, tries) : tries, endings: at("leak-endings").checked,
      steps: at("leak-steps").checked };
  }

  async leak(signal) {
    if (this.app.isSearchClosed || !this.judgeBudget()) return;
    if (!signal) fill(at("leak-result"), h("p", {}, "The search runs."));
    if (at("leak-only").checked && !await this.observer("leak-result")) return;
    const asked = this.search(signal), key = JSON.stringify(["leak", asked]);
    const large = JSON.stringify(this.search());
    // A search of more pairs, which the button has begun, says more than this one would.
    if (signal && this.large === large) return;
    this.large = signal ? "" : large;
    if (signal && this.done.leak !== key && this.beside?.key === key) {
      this.done.leak = key;
      this.turns.leak = null;
      this.showLeak(this.beside.answer);
      return;
    }
    const answer = await this.ask("leak", "leak", asked, signal);
    if (!answer) return;
    if (trouble(answer)) this.large = "";
    this.showLeak(answer);
  }

  showLeak(answer) {
    const isLeak = /^leak at /.test(answer.errors ?? ""), runs = isLeak ? twoRuns(answer.errors) : null;
    fill(at("leak-result"), runs ? [h("p", { class: "no" }, `A leak at ${runs.observer}.`), runsTable(runs),
      this.app.tasks.takesStores ? button("Take both stores to Two runs", () => this.take(runs)) : null]
      : answer.status === 0 && !trouble(answer) ? [h("p", { class: "yes" }, `${answer.output.trim()}.`),
        h("p", { class: "hint" }, "Finding none says nothing about other pairs.")]
        : complaint(answer, () => this.leak()));
  }

  /** Looks for a leak of a refused program, and says beside the verdict what an observer sees of it. */
  async leakBeside(signal) {
    const { app } = this;
    if (app.isSearchClosed || !app.tasks.takesStores || this.budget === null) {
      this.forgetBeside();
      app.judges.say("search", "", this.budget === null ? "needs a budget" : "is yours here");
      return;
    }
    const asked = { ...this.body, budget: this.budget, tries: PAIRS, endings: false, steps: false };
    const answer = await this.ask("beside", "leak", asked, signal);
    if (!answer) return;
    this.beside = { key: JSON.stringify(["leak", asked]), answer };
    const none = answer.status === 0 && !trouble(answer) ? /^no (leak in .*)$/m.exec(answer.output) : null;
    const leak = /^leak at /.test(answer.errors ?? "") ? twoRuns(answer.errors) : null;
    app.judges.search(leak, none?.[1]);
    at("verdict-leak").className = none ? "hint" : "";
    fill(at("verdict-leak"), leak ? leakSentence(leak) : none && app.verdict.accepted === false
      ? `No ${none[1]}. Finding none says nothing about other pairs.` : "");
  }

  /** Takes away what is said of a leak. */
  forgetBeside() {
    this.done.beside = "";
    this.turns.beside = null;
    at("verdict-leak").className = "";
    fill(at("verdict-leak"));
    this.app.judges.clear("search");
  }

  /** Puts the stores of a leak into the fields of two runs. */
  take(runs) {
    this.pair.kept = [new Map(runs.before.map((row) => [row.name, row.left])),
      new Map(runs.before.map((row) => [row.name, row.right]))];
    this.pair.shown = "";
    this.app.policy.look(runs.observer);
    this.refresh();
    this.app.open("pair");
  }

  /** Compares two runs; answers the rows, or nothing. */
  async compare() {
    const observer = await this.observer("pair-result");
    if (!observer || !this.isReady(this.pair)) return null;
    const asked = { ...this.body, store: this.pair.text(0), other: this.pair.text(1), class: observer,
      budget: this.budget };
    const answer = await ask("compare", asked);
    if (!/ sees before$/m.test(answer.output ?? "")) {
      fill(at("pair-result"), complaint(answer));
      return null;
    }
    const runs = twoRuns(answer.output);
    const sees = answer.status === 0 ? "sees" : "doesn't see";
    fill(at("pair-result"), h("p", { class: answer.status === 0 ? "yes" : "no" },
      `${observer} ${sees} the same after both runs.`), runsTable(runs));
    this.app.tasks.judge(runs);
    await this.app.together.ask(asked);
    return runs;
  }

  async drive() {
    const lines = at("cycles-lines").value;
    const observer = await this.observer("cycles-result");
    if (!observer || !this.isReady(this.store)) return;
    const answer = await ask("drive", { ...this.body, store: this.store.text(0), lines, budget: this.budget,
      class: observer });
    if (answer.status !== 0) {
      fill(at("cycles-result"), complaint(answer));
      return;
    }
    const given = lines.replace(/\n$/, "").split("\n");
    const answers = answer.output.split("\n").slice(0, given.length);
    fill(at("cycles-result"), table("The cycles", ["Line", "Answer"], answers.map((line, index) =>
      [h("code", {}, given[index] || "(none)"), h("code", {}, line)])));
  }
}
