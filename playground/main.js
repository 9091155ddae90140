// The page: its editors, its tabs, what is open, and sharing.
import { ask, load } from "./api.js";
import { at, fill, h } from "./dom.js";
import { Editor } from "./editor.js";
import { Judges } from "./judges.js";
import { keepHere, keptHere, packed, unpacked } from "./keeping.js";
import { Policy, READY } from "./lattice.js";
import { Lesson, uncommented } from "./lesson.js";
import { Live } from "./live.js";
import { Machine } from "./machine.js";
import { Panes } from "./panes.js";
import { globals, isLattice } from "./reading.js";
import { Tasks } from "./tasks.js";
import { Together } from "./together.js";
import { Verdict } from "./verdict.js";

const FIRST = "# Which variable leaks into which? Change the text until it is accepted.\n"
  + "var salary : H;\nvar report : L;\n\nreport := salary + 100\n";
// The panes: those with a tab, and those of the menu beside them.
const TABS = ["run", "leak", "flows", "machine"], MENU = ["cycles", "report"];
// The panes that show the verdict or a leak, and those that show a leak. The search of the pane Leak is apart.
const TELLING = ["flows", "machine", "report"], SEARCHING = ["report"];
const SUBJECTS = ["language", "lattice", "store", "classes", "profiles"];
// How many texts can be brought back after something has replaced them.
const MOST_UNDONE = 50;

class App {
  constructor({ exercises, levels, examples, isLesson }) {
    this.policy = new Policy(() => this.recolour());
    this.live = new Live(this);
    this.verdict = new Verdict(this);
    this.program = new Editor(at("program-editor"), { id: "text", label: "Program", isProgram: true,
      change: () => this.typed() });
    this.latticeEditor = new Editor(at("lattice-editor"), { id: "lattice-text", label: "Lattice", isProgram: false,
      change: () => this.typed() });
    this.panes = new Panes(this);
    this.machine = new Machine(this);
    this.judges = new Judges(this);
    this.together = new Together(this);
    this.examples = examples;
    this.tasks = new Tasks(this, exercises, levels);
    this.lesson = new Lesson(this, isLesson);
    this.item = "";
    this.pane = TABS[0];
    this.past = [];
    this.wire();
  }

  get text() {
    return this.program.text;
  }

  get lattice() {
    return this.latticeEditor.text;
  }

  get profile() {
    return at("profile").value;
  }

  wire() {
    at("profile").addEventListener("change", () => this.verdict.now());
    at("ready").addEventListener("change", (event) => this.takeLattice(event.target.value));
    at("open").addEventListener("change", (event) => {
      this.remember();
      this.openItem(event.target.value);
    });
    at("share").addEventListener("click", () => this.share());
    at("print").addEventListener("click", () => print());
    at("tidy").addEventListener("click", () => this.tidy());
    at("undo").addEventListener("click", () => this.undo());
    at("text").addEventListener("keydown", (event) => this.undoByKey(event));
    at("explain").addEventListener("click", () => this.explain(at("about").value));
    at("dialog-close").addEventListener("click", () => at("dialog").close());
    at("report-form").addEventListener("submit", () => this.fillReport());
    addEventListener("hashchange", () => this.openAddress());
    this.wireTabs();
  }

  wireTabs() {
    at("more").addEventListener("change", (event) => this.open(event.target.value || TABS[0]));
    for (const name of TABS) {
      const tab = at(`tab-${name}`);
      tab.addEventListener("click", () => this.open(name));
      tab.addEventListener("keydown", (event) => {
        const change = { ArrowRight: 1, ArrowLeft: -1 }[event.key];
        const free = TABS.filter((one) => !at(`tab-${one}`).disabled);
        const now = free.indexOf(name);
        const to = event.key === "Home" ? free[0] : event.key === "End" ? free[free.length - 1]
          : change ? free[(now + change + free.length) % free.length] : null;
        if (!to) return;
        event.preventDefault();
        this.open(to);
        at(`tab-${to}`).focus();
      });
    }
  }

  /** Whether the search for a leak is closed: before Show, or before a try of one's own. */
  get isSearchClosed() {
    return this.lesson.isHidden || this.tasks.isUntried;
  }

  /** What opens a pane: its tab, or its line of the menu. */
  opener(name) {
    return TABS.includes(name) ? at(`tab-${name}`) : at("more").querySelector(`[value=${name}]`);
  }

  /** Closes the panes that would show a verdict before Show, or a leak before a try of one's own; opens the others. */
  showTabs() {
    const closed = new Set([...(this.lesson.isHidden ? TELLING : []), ...(this.tasks.isUntried ? SEARCHING : [])]);
    for (const name of [...TABS, ...MENU]) this.opener(name).disabled = closed.has(name);
    at("search").hidden = this.isSearchClosed;
    at("leak").classList.toggle("of-stores", !this.tasks.takesStores);
    if (closed.has(this.pane)) this.open("run");
  }

  /** Shows a pane, unless it is closed, and presses its button if one is named. Two runs are a part of Leak. */
  open(name, pressed = "") {
    const pane = name === "pair" ? "leak" : name;
    if (this.opener(pane).disabled) return;
    this.pane = pane;
    for (const other of [...TABS, ...MENU]) at(other).hidden = other !== pane;
    for (const other of TABS) {
      at(`tab-${other}`).setAttribute("aria-selected", String(other === pane));
      at(`tab-${other}`).tabIndex = other === pane || (other === TABS[0] && MENU.includes(pane)) ? 0 : -1;
    }
    at("more").value = MENU.includes(pane) ? pane : "";
    at("store-part").hidden = !["run", "machine", "cycles"].includes(pane);
    at("budget-row").hidden = pane === "flows" || pane === "report";
    this.machine.light(0);
    this.together.look(pane === "leak");
    if (name === "pair") at("pair").scrollIntoView({ block: "nearest" });
    if (pressed) at(pressed).click();
    this.live.now();
  }

  typed() {
    this.verdict.forget();
    this.machine.forget();
    this.together.forget();
    this.panes.refresh();
    this.showTabs();
    this.live.show();
    this.tasks.keepDraft();
    if (!this.item) keepHere("draft", { text: this.text, lattice: this.lattice, profile: this.profile });
    this.verdict.later();
  }

  /** Changes the text for its reader, who can undo it. */
  change(text) {
    this.remember();
    this.program.text = text;
    this.typed();
    this.verdict.now();
  }

  /** Remembers what is open, before something replaces it. */
  remember() {
    this.past.push({ item: this.item, text: this.text, lattice: this.lattice, profile: this.profile });
    if (this.past.length > MOST_UNDONE) this.past.shift();
    at("undo").disabled = false;
  }

  /** Brings back what was replaced last. */
  undo() {
    const before = this.past.pop();
    if (!before) return;
    at("undo").disabled = !this.past.length;
    if (before.item !== this.item) this.openItem(before.item);
    this.program.text = before.text;
    this.latticeEditor.text = before.lattice;
    this.showReady();
    at("profile").value = before.profile;
    this.typed();
    this.verdict.now();
  }

  /** Ctrl-Z undoes a replacement, too. What was typed since then the browser takes back itself. */
  undoByKey(event) {
    if (event.key !== "z" || event.shiftKey || event.altKey || !(event.ctrlKey || event.metaKey)) return;
    if (this.past[this.past.length - 1]?.item !== this.item || !this.program.isGiven) return;
    event.preventDefault();
    this.undo();
  }

  recolour() {
    const numbers = new Map(this.policy.lattice.classes.map((name, index) => [name, index]));
    this.program.number(numbers);
    this.latticeEditor.number(numbers);
    this.panes.refresh();
    this.live.later();
  }

  setProfile(profile) {
    at("profile").value = profile;
    this.verdict.now();
  }

  /** Shows a text with everything that belongs to it, and forgets the results of the one before. */
  show({ text, lattice, files = {}, profile = "base", isFixed = false, isLatticeFixed = false, stores = null,
    observer = "", budget = "10000", tab = "run", base = "" }) {
    this.program.text = text;
    this.latticeEditor.text = lattice;
    this.program.isFixed = isFixed;
    this.isFixed = isFixed;
    this.latticeEditor.isFixed = isLatticeFixed;
    at("ready").disabled = isLatticeFixed;
    at("tidy").disabled = isFixed;
    at("profile").value = ["base", "strict", "steady"].includes(profile) ? profile : "base";
    at("budget").value = budget;
    this.showReady();
    this.verdict.forget();
    this.panes.clear();
    (stores ?? []).forEach((store, index) => this.panes.pair.take(index, store));
    this.machine.forget();
    this.together.forget();
    at("steps").hidden = true;
    this.panes.offer(files, base);
    this.policy.look(observer);
    this.panes.refresh();
    this.showTabs();
    this.open(tab);
    this.verdict.now();
  }

  showReady() {
    const plain = this.lattice.replace(/^#.*\n/gm, "").trim();
    const index = READY.findIndex(([, text]) => text.trim() === plain);
    at("ready").value = index < 0 ? "" : String(index);
  }

  takeLattice(value) {
    if (value === "") return;
    this.remember();
    this.latticeEditor.text = READY[Number(value)][1];
    this.typed();
    this.verdict.now();
  }

  /** Opens a task, an example or the free text by its name. */
  openItem(name) {
    const example = this.examples.find((one) => one.name === name || one.neutral === name);
    this.item = example ? this.nameOf(example) : name;
    at("open").value = this.item;
    history.replaceState(null, "", this.item ? `#${this.item}` : location.pathname);
    if (this.tasks.start(name)) return;
    if (example && this.lesson.isOn) this.show({ ...example.shown, text: uncommented(example.shown.text) });
    else this.show(example ? example.shown : keptHere("draft", { text: FIRST, lattice: READY[0][1] }));
  }

  /** The name of an example. In a lesson it doesn't give the verdict away. */
  nameOf(example) {
    return this.lesson.isOn ? example.neutral : example.name;
  }

  /** Lists everything that can be opened. */
  listItems() {
    const folders = Object.entries(Object.groupBy ? Object.groupBy(this.examples, ({ folder }) => folder)
      : this.examples.reduce((all, one) => ({ ...all, [one.folder]: [...(all[one.folder] ?? []), one] }), {}));
    const groups = [...this.tasks.list(), ...folders.map(([folder, list]) => [`Example: ${folder}`,
      list.map((one) => [this.nameOf(one), this.nameOf(one)])])];
    fill(at("open"), h("option", { value: "" }, "A text of your own"), groups.map(([label, items]) =>
      h("optgroup", { label }, items.map(([value, title]) => h("option", { value }, title)))));
    at("open").value = this.item;
  }

  /** Opens what the address names: a shared text, or a task. */
  openAddress() {
    const shared = unpacked(location.hash);
    if (shared) {
      this.item = "";
      at("open").value = "";
      this.tasks.start("");
      this.show(shared);
      return;
    }
    this.openItem(decodeURIComponent(location.hash.slice(1)));
  }

  async share() {
    const fragment = packed({ text: this.text, lattice: this.lattice, profile: this.profile });
    const address = location.origin + location.pathname + fragment;
    at("link").value = address;
    at("shared").hidden = false;
    at("link").focus();
    at("link").select();
    try {
      await navigator.clipboard.writeText(address);
      at("shared-note").textContent = "The link is copied. It holds the text and the lattice.";
    } catch {
      at("shared-note").textContent = "Copy this link. It holds the text and the lattice.";
    }
  }

  async tidy() {
    const answer = await ask("fmt", { text: this.text });
    if (answer.status === 0) this.change(answer.output);
    else this.verdict.now();
  }

  async explain(subject) {
    const answer = await ask("explain", { subject });
    at("dialog-text").textContent = answer.status === 0 ? answer.output : answer.errors ?? "";
    at("dialog").showModal();
  }

  fillReport() {
    at("report-text").value = this.text;
    at("report-lattice").value = this.lattice;
    at("report-profile").value = this.profile;
    at("report-frame").hidden = false;
  }
}

/** The examples: each source text with the lattice file and the stores of its folder. */
function readExamples(folders) {
  return folders.flatMap(({ name, files }) => {
    const lattices = Object.values(files).filter(isLattice);
    const fits = (lattice, text) => globals(text).every((one) => lattice.includes(`"${one.class}"`));
    const fitting = (text) => lattices.find((lattice) => fits(lattice, text));
    return Object.keys(files).filter((file) => file.endsWith(".vsi") && fitting(files[file])).map((file, index) => ({
      folder: name, name: `${name}/${file}`, neutral: `${name}-${index + 1}`,
      shown: { text: files[file], lattice: fitting(files[file]), files, base: file.slice(0, -4) } }));
  });
}

/** Begins with what the address names, or with the text of the last visit. */
async function start() {
  fill(at("ready"), h("option", { value: "" }, "own lattice"), READY.map(([label], index) =>
    h("option", { value: String(index) }, label)));
  at("about").append(...SUBJECTS.map((subject) => h("option", { value: subject }, subject)));
  const [exercises, levels, folders, isLesson] = await Promise.all(["exercises.json", "levels.json", "examples.json",
    "lesson.json"].map(load));
  const app = new App({ exercises, levels, examples: readExamples(folders), isLesson });
  app.listItems();
  app.openAddress();
  document.body.dataset.ready = "yes";
}

start().catch(() => {
  fill(at("verdict-body"), h("p", {}, "The page could not be loaded. Is the server running?"));
});
