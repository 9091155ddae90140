// The requests of the page to its server.
import { at } from "./dom.js";

// A request that a busy server refuses is sent again: so often, after such a pause. So is one that takes too long
// though it takes the program only some milliseconds.
const TIMES = 6, PAUSE = 1500, SHORT = new Set(["check", "classes", "explain", "fmt", "lattice"]);
let waiting = 0;

async function send(request, body, signal) {
  const response = await fetch(`api/${request}`, {
    method: "POST",
    headers: { "Content-Type": "application/json" },
    body: JSON.stringify(body),
    signal,
  });
  const answer = await response.json();
  return { ...answer, isBusy: response.status === 503 || (answer.stopped === "time" && SHORT.has(request)) };
}

async function once(request, body, signal) {
  try {
    // A connection that was idle may just have been closed; a request changes nothing, so it can be sent again.
    return await send(request, body, signal).catch(() => send(request, body, signal));
  } catch {
    return { status: -1, refused: "the server doesn't answer" };
  }
}

/** Counts the requests that wait for a busy server; the page says so while there is one. */
function wait(change) {
  waiting += change;
  at("busy").hidden = waiting === 0;
}

/**
 * Sends a request, and again while the server is busy and the answer is wanted; answers the run of the program, or a
 * run with `refused` if the server has none. A signal cancels the request, on the server as well.
 */
export async function ask(request, body, isWanted = () => true, signal = undefined) {
  let answer = await once(request, body, signal);
  if (!answer.isBusy) return answer;
  wait(1);
  for (let times = 1; answer.isBusy && times < TIMES && isWanted(); times += 1) {
    // Pages that were refused together come back at different times.
    await new Promise((resolve) => setTimeout(resolve, PAUSE * (0.5 + Math.random())));
    if (isWanted()) answer = await once(request, body, signal);
  }
  wait(-1);
  return answer;
}

const STOPPED = {
  time: "The run took too long, so the server stopped it. Use a smaller budget or fewer pairs, or try "
    + "again if the server is busy.",
  memory: "The run used up its memory, so the server stopped it.",
  output: "The run wrote too much, so the server stopped it. Use a smaller budget.",
};

/** A sentence about an answer that the program didn't finish, or nothing. */
export function trouble(answer) {
  if (answer.refused) return `No answer: ${answer.refused}.`;
  return answer.stopped ? STOPPED[answer.stopped] : null;
}

/** The files of the page that the server makes. */
export async function load(path) {
  const response = await fetch(path);
  if (!response.ok) throw new Error(path);
  return response.json();
}
