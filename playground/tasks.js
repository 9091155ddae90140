// The exercises, which `vsi conform` marks, and the game `Show me`, which `vsi compare` judges. Progress stays here.
import { ask } from "./api.js";
import { at, button, fill, h } from "./dom.js";
import { markdown } from "./markdown.js";
import { complaint } from "./panes.js";
import { twoRuns } from "./reading.js";
import { keep, keepHere, kept, keptHere, save } from "./keeping.js";

const GOALS = {
  words: "Find two stores that look the same to the observer, and whose ends don't.",
  ending: "Find two stores that look the same to the observer: one run halts within the budget, the other doesn't.",
  steps: "Find two stores that look the same to the observer, and whose runs take different numbers of instructions.",
};

const HERE = {
  text: "Your answer is the program on this page.",
  policy: "Your answer is the lattice on this page.",
  leak: "Your answer is the two stores of Two runs, in the pane Leak.",
};

const LOCKED = "The search opens once you have compared two different stores of your own.";

/** Whether two runs reach a goal. Their stores look the same to the observer if no row before them differs. */
export function reaches(goal, runs) {
  if (runs.before.some((row) => row.differs)) return false;
  const end = runs.after[runs.after.length - 1];
  const out = [end?.left, end?.right].filter((text) => text === "out of budget").length;
  if (goal === "ending") return out === 1;
  if (goal === "steps") return out === 0 && Boolean(end?.differs);
  return runs.after.some((row) => row.name && row.differs);
}

/** A line of shell in a task, with the button that does the same here. */
function command(app, line) {
  const does = [
    [/conform|grade/, "Mark", () => app.tasks.mark()],
    [/^vsi check.*--strict/, "Check", () => app.setProfile("strict")],
    [/^vsi check.*--steady/, "Check", () => app.setProfile("steady")],
    [/^vsi check/, "Check", () => app.verdict.now()],
    [/^vsi flows/, "List the flows", () => app.open("flows", "flows-button")],
    [/^vsi leak/, "Look for a leak", () => app.tasks.search()],
    [/^vsi compare/, "Compare", () => app.open("pair", "pair-button")],
    [/^vsi drive/, "Drive", () => app.open("cycles", "cycles-button")],
  ].find(([pattern]) => pattern.test(line));
  const note = /^cp /.test(line) ? "Not needed: the editor holds the copy."
    : /^vsi build/.test(line) ? "Not needed: the server builds the image."
      : /^vsi monitor/.test(line) ? "Beside the verdict, from the store of Run." : "";
  return h("li", {}, h("code", {}, line), " ",
    does ? button(does[1], does[2], { class: "plain" }) : h("small", {}, note));
}

/** The answer to these exercises and levels is two stores, for which one looks before a search does. */
const isOfStores = (task) => Boolean(task) && (task.kind ?? "leak") === "leak";

/** The task that is open, an exercise or a level. */
export class Tasks {
  constructor(app, exercises, levels) {
    this.app = app;
    this.exercises = exercises;
    this.levels = levels;
    this.open = null;
  }

  /** The names and titles of all tasks, with those that are done. */
  list() {
    const done = kept("done", {});
    const sign = (name) => (done[name] ? "✓ " : "");
    return [["Exercises", this.exercises.map((one) => [one.name, sign(one.name) + title(one)])],
      ["Show me, a game", this.levels.map((one, index) => [one.name, `${sign(one.name)}${index + 1}. ${one.title}`])]];
  }

  /** Whether the search is closed: until two stores of one's own, that differ, were compared. */
  get isUntried() {
    return isOfStores(this.open) && !kept("tried", {})[this.open.name];
  }

  /** Whether a search may fill in its stores. They would be the answer. */
  get takesStores() {
    return !isOfStores(this.open);
  }

  /** Looks for a leak, if the search is open. */
  search() {
    if (this.isUntried) this.result(false, LOCKED);
    else this.app.open("leak", "leak-button");
  }

  /** Both stores of Two runs. */
  get stores() {
    return this.app.panes.pair.text(0) + this.app.panes.pair.text(1);
  }

  /** Counts a try of one's own. */
  tried() {
    const { pair } = this.app.panes;
    if (!this.isUntried || pair.text(0) === pair.text(1) || this.stores === this.begun) return;
    keep("tried", { ...kept("tried", {}), [this.open.name]: true });
    this.app.showTabs();
  }

  /** Opens a task by its name; answers whether there is one. */
  start(name) {
    const exercise = this.exercises.find((one) => one.name === name);
    const level = this.levels.find((one) => one.name === name);
    this.open = exercise ?? level ?? null;
    at("task").hidden = !this.open;
    at("task").parentElement.classList.toggle("with-task", Boolean(this.open));
    fill(at("task-result"));
    at("task-result").className = "";
    if (exercise) this.startExercise(exercise);
    if (level) this.startLevel(level);
    this.begun = this.stores;
    return Boolean(this.open);
  }

  startExercise(exercise) {
    const { files, kind } = exercise;
    const draft = keptHere(`draft.${exercise.name}`, null);
    const stores = draft ? [draft.one, draft.other] : [files["start_one.toml"], files["start_other.toml"]];
    const text = files["start.vsi"] ?? files["broken.vsi"] ?? files["accepted_round.vsi"];
    const lattice = kind === "policy" ? files["start.toml"] : files[exercise.lattice];
    const profile = /profile = "(\w+)"/.exec(files["interface.toml"] ?? "")?.[1] ?? "base";
    this.app.show({ text: kind === "text" && draft ? draft : text,
      lattice: kind === "policy" && draft ? draft : lattice, files, profile,
      observer: kind === "leak" ? "L" : "", isFixed: kind === "leak", isLatticeFixed: kind !== "policy",
      stores: kind === "leak" ? stores : null,
      budget: (files["budget.txt"] ?? draft?.budget ?? files["start_budget.txt"] ?? "10000").trim(),
      tab: kind === "leak" ? "leak" : "run" });
    fill(at("task-body"), h("p", { class: "note" }, `${HERE[kind]} Type no command: the verdict is below the text, `
      + `and the panes do the rest.${kind === "leak" ? ` ${LOCKED}` : ""}`),
    markdown(exercise.task, { level: 1, command: (line) => command(this.app, line) }));
    fill(at("task-buttons"), button("Mark my answer", () => this.mark(), { class: "main", id: "mark-button" }),
      button("Begin again", () => this.again()), button("Download my answers", () => this.download(),
        { id: "download-answers" }), this.next());
  }

  startLevel(level) {
    this.app.show({ text: level.text, lattice: level.lattice, files: {}, profile: level.profile, isFixed: true,
      isLatticeFixed: true, stores: ["", ""], observer: level.observer, budget: String(level.budget), tab: "leak" });
    const number = this.levels.indexOf(level) + 1;
    fill(at("task-body"), h("h2", {}, `Show me ${number}: ${level.title}`), level.task.map((text) => h("p", {}, text)),
      h("p", { class: "goal" }, GOALS[level.goal]),
      h("p", { class: "note" }, LOCKED), h("details", {}, h("summary", {}, "Hint"), h("p", {}, level.hint)));
    fill(at("task-buttons"), button("Show me", () => this.app.panes.compare(), { class: "main", id: "show-button" }),
      this.next());
  }

  next() {
    const all = [...this.exercises, ...this.levels];
    const next = all[all.indexOf(this.open) + 1];
    return next ? button("Next", () => this.app.openItem(next.name), { id: "next-task" }) : null;
  }

  /** Forgets the draft of an exercise and opens its start. */
  again() {
    this.app.remember();
    keepHere(`draft.${this.open.name}`, null);
    this.start(this.open.name);
  }

  /** Keeps the answer as it is typed; that of two stores when it is marked or downloaded. */
  keepDraft(hasStores = false) {
    if (!this.open || !this.open.kind || (this.open.kind === "leak" && !hasStores)) return;
    const { text, lattice, panes } = this.app;
    if (this.open.kind === "leak" && !panes.isReady(panes.pair)) return;
    const answer = { text, policy: lattice,
      leak: { one: panes.pair.text(0), other: panes.pair.text(1), budget: String(panes.budget) } }[this.open.kind];
    keepHere(`draft.${this.open.name}`, answer);
  }

  /** Gives all answers as one file, which `exercises/grade` reads. */
  download() {
    this.keepDraft(true);
    save("vsi-answers.json", JSON.stringify({ "vsi-answers": 1, answers: handedIn(this.exercises) }, null, 1));
  }

  async mark() {
    const exercise = this.open;
    this.keepDraft(true);
    const { text, lattice, panes } = this.app;
    if (exercise.kind === "leak" && !panes.isReady(panes.pair)) {
      this.result(false, "A field holds no number: see below it.");
      return;
    }
    const answer = await ask("conform", { exercise: exercise.name, ...({ text: { text }, policy: { lattice },
      leak: { store: panes.pair.text(0), other: panes.pair.text(1), budget: panes.budget } })[exercise.kind] });
    if (this.open !== exercise) return;
    if (answer.refused || answer.stopped) this.result(false, complaint(answer));
    else if (exercise.kind === "text") this.markText(answer);
    else if (exercise.kind === "policy") this.markPolicy(answer);
    else this.markLeak(answer);
  }

  markText(answer) {
    // Lines about released outputs may follow.
    if (answer.status === 0 && answer.output.startsWith("conforms\n")) this.result(true, "It conforms.");
    else this.result(false, h("pre", { class: "prose", tabindex: "0" }, (answer.output || answer.errors).trimEnd()));
  }

  /** A policy accepts the texts of `accepted`, and refuses those of `refused` for their flows. */
  markPolicy(answer) {
    const wrong = answer.texts.map((one) => {
      const [kind, name] = [one.name.split("_")[0], one.name.replace("_", "/")];
      if (one.stopped) return `${name}: no answer in time`;
      if (kind === "accepted") return one.status === 0 ? "" : `${name} isn't accepted: ${one.errors.trim()}`;
      return one.errors.startsWith("refused: 25 ") ? ""
        : `${name} ${one.status === 0 ? "is accepted" : `isn't refused for its flow: ${one.errors.trim()}`}`;
    }).filter(Boolean);
    this.result(!wrong.length, wrong.length ? h("ul", {}, wrong.map((line) => h("li", {}, line)))
      : "Each text is accepted or refused as the rules require.");
  }

  /** Two runs that L can tell apart, from stores that look the same to it. */
  markLeak(answer) {
    const runs = twoRuns(answer.output);
    if (!runs.after.length) {
      this.result(false, complaint(answer));
      return;
    }
    const isSame = !runs.before.some((row) => row.differs);
    const isRight = isSame && answer.status === 1;
    this.result(isRight, isRight ? "L can tell the runs apart." : isSame ? "L sees the same after both runs."
      : "L sees before the runs that the stores differ.");
    this.app.panes.compare();
    this.app.open("pair");
  }

  /** Judges a level by the rows that `compare` has printed. */
  judge(runs) {
    this.tried();
    if (!this.open || this.open.kind) return;
    if (runs.observer === this.open.observer && reaches(this.open.goal, runs)) {
      this.result(true, `Shown: ${this.open.shown}`);
    } else if (runs.before.some((row) => row.differs)) {
      this.result(false, "The stores must look the same to the observer before the runs.");
    } else this.result(false, "Not yet: these two runs don't show it.");
  }

  result(isDone, ...parts) {
    at("task-result").className = isDone ? "done" : "open";
    fill(at("task-result"), h("strong", {}, isDone ? "Right. " : "Not right yet. "), parts);
    if (!isDone) return;
    keep("done", { ...kept("done", {}), [this.open.name]: true });
    this.app.listItems();
  }
}

/** The latest answers of all tabs, by exercise and file, as the exercises' pages name them. */
export function handedIn(exercises) {
  const drafts = Object.fromEntries(exercises.map(({ name }) => [name, kept(`draft.${name}`, null)]));
  const files = ({ kind, files }, draft) => (kind === "text" ? { "answer.vsi": draft }
    : kind === "policy" ? { "answer.toml": draft }
      : { "one.toml": draft.one, "other.toml": draft.other,
        ...(files["budget.txt"] ? {} : { "budget.txt": `${draft.budget}\n` }) });
  return Object.fromEntries(exercises.filter(({ name }) => drafts[name] !== null)
    .map((exercise) => [exercise.name, files(exercise, drafts[exercise.name])]));
}

/** The title of an exercise: the heading of its page. */
function title(exercise) {
  return /^# (.*)$/m.exec(exercise.task)?.[1] ?? exercise.name;
}
