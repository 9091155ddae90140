// Follows the typing without a button: the leak and the monitor beside the verdict, and the open pane's results.
import { at } from "./dom.js";

// Milliseconds after a change of a store, the budget or the observer.
const PAUSE = 250;

/** Asks for results after a change, one request at a time, and cancels those that nobody needs. */
export class Live {
  constructor(app) {
    this.app = app;
    this.timer = 0;
    this.controller = new AbortController();
  }

  /** Whether results follow: for a program that runs, isn't large, and isn't voted about. */
  get follows() {
    return this.app.verdict.isRunnable && !this.app.program.isLarge && !this.app.lesson.isHidden;
  }

  /** Ends the requests about what has just been changed. */
  cancel() {
    clearTimeout(this.timer);
    this.controller.abort();
  }

  later() {
    this.cancel();
    this.timer = setTimeout(() => this.now(), PAUSE);
  }

  async now() {
    this.cancel();
    this.controller = new AbortController();
    const { signal } = this.controller, { app } = this;
    this.show();
    if (!this.follows) return;
    await app.panes.leakBeside(signal);
    if (signal.aborted) return;
    await app.judges.monitor(signal);
    if (signal.aborted) return;
    const follow = { run: () => app.panes.run(signal), flows: () => app.panes.flows(signal),
      leak: () => app.panes.leak(signal), machine: () => app.machine.trace(signal) }[app.pane];
    await follow?.();
  }

  /** Shows buttons where results don't follow, and says so where the present program has none. */
  show() {
    const { program, lesson, verdict } = this.app;
    const isByHand = program.isLarge || lesson.isHidden;
    for (const name of ["run", "flows"]) at(`${name}-button`).hidden = !isByHand;
    at("machine-button").hidden = !isByHand && !this.app.machine.isOfImage;
    at("stale").hidden = isByHand || verdict.isRunnable !== false;
  }
}
