// The three that judge the program, side by side: the types, a monitor of the run, and the search for a leak.
import { trouble } from "./api.js";
import { at, fill, h } from "./dom.js";
import { place } from "./prose.js";
import { globals, monitored } from "./reading.js";

// How many steps a monitored run may take while it follows the typing.
const MOST_STEPS = 10000;

/** The answers of the types, the monitor and the search about one program. */
export class Judges {
  constructor(app) {
    this.app = app;
  }

  /** Shows one answer; `mark` is yes, no or nothing. */
  say(name, mark, ...said) {
    at("judges").hidden = false;
    at(`judge-${name}`).className = mark;
    fill(at(`judge-${name}`), said);
  }

  types(isAccepted) {
    this.say("types", isAccepted ? "yes" : "no", isAccepted ? "accept the program" : "refuse the program");
  }

  search(leak, none) {
    if (leak) this.say("search", "no", `finds a leak at ${leak.observer}`);
    else this.say("search", "", none ? `finds no ${none}` : "has no answer");
  }

  /** Asks the monitor about the run from the store of Run. */
  async monitor(signal) {
    const { panes } = this.app;
    if (!panes.isReady(panes.store)) {
      panes.done.monitor = "";
      this.say("monitor", "", "needs a store and a budget");
      return;
    }
    const budget = Math.min(MOST_STEPS, panes.budget);
    const answer = await panes.ask("monitor", "monitor", { ...panes.body, store: panes.store.text(0), budget }, signal);
    if (!answer) return;
    const { stop, labels } = monitored(answer.output ?? "");
    if (trouble(answer) || (answer.status === 1 && !stop)) this.say("monitor", "", "has no answer");
    else if (answer.status === 3) this.say("monitor", "", `sees no end in ${budget} steps`);
    else if (stop) this.stopped(stop);
    else this.ended(labels);
  }

  stopped({ line, column, name, label, under }) {
    this.say("monitor", "no", "stops the run at ", place(line, column, (...to) => this.app.program.go(...to)), ": ",
      h("code", {}, name), ` with label ${label} is assigned under ${under}`);
  }

  ended(labels) {
    const classes = new Map(globals(this.app.text).map((one) => [one.name, one.class]));
    const raised = labels.filter(({ name, label }) => classes.get(name) !== label);
    this.say("monitor", "yes", "lets the run end", raised.map(({ name, label }, index) =>
      [index ? ", " : "; now ", h("code", {}, name), ` has label ${label}`]));
  }

  /** Takes all answers away, since they are about another program. */
  forget() {
    at("judges").hidden = true;
    this.app.panes.done.monitor = "";
    for (const name of ["types", "monitor", "search"]) this.clear(name);
  }

  clear(name) {
    at(`judge-${name}`).className = "";
    fill(at(`judge-${name}`));
  }
}
