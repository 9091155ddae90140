// Reads the texts that the program prints, and cuts source texts into tokens for their colours. It judges nothing.

const KEYWORDS = new Set(["var", "letvar", "in", "if", "then", "else", "while", "do"]);
const GLOBAL = /\bvar\s+([A-Za-z]\w*)(?:\s*:\s*([A-Za-z]\w*))?/g;
const TOKEN = /(#[^\n]*)|([A-Za-z0-9_]+)|(:=|[:;+\-*=<(){}])|([ \t\r\n]+)|([^])/g;

/** How many bytes of UTF-8 a text has, as the columns of the program count them. */
export const bytes = (text) => new TextEncoder().encode(text).length;

/** The tokens of a text: kind, text, the line and column of the first byte, and where the first letter is. */
export function tokens(text) {
  const found = [];
  let line = 1, column = 1;
  for (const match of text.matchAll(TOKEN)) {
    const [word, comment, name, symbol, blank] = match;
    const kind = comment !== undefined ? "comment"
      : name !== undefined ? (KEYWORDS.has(name) ? "keyword" : /^\d+$/.test(name) ? "number" : "name")
        : symbol !== undefined ? "symbol" : blank !== undefined ? "blank" : "fault";
    found.push({ kind, text: word, line, column, start: match.index });
    const parts = word.split("\n");
    line += parts.length - 1;
    column = (parts.length > 1 ? 1 : column) + (kind === "name" ? word.length : bytes(parts[parts.length - 1]));
  }
  return found;
}

/** The declarations of a text as it is written: name, class or null, position of the name and of the class. */
export function declarations(list) {
  const parts = list.filter((token) => token.kind !== "blank" && token.kind !== "comment");
  const found = [];
  parts.forEach((token, index) => {
    if (token.text !== "var" && token.text !== "letvar") return;
    const [name, colon, kind] = parts.slice(index + 1, index + 4);
    if (name?.kind !== "name") return;
    const declared = colon?.text === ":" && kind?.kind === "name" ? kind : null;
    found.push({ name: name.text, isGlobal: token.text === "var", class: declared?.text ?? null, place: name,
      classPlace: declared });
  });
  return found;
}

/** The globals of a text, in their order, each name once. It reads no tokens, since it is done at each key. */
export function globals(text) {
  const seen = new Map();
  for (const [, name, kind] of text.replace(/#[^\n]*/g, "").matchAll(GLOBAL)) {
    if (!seen.has(name)) seen.set(name, kind ?? null);
  }
  return [...seen].map(([name, kind]) => ({ name, class: kind }));
}

/** The steps of a refusal: positions and names from its lines. */
export function steps(text) {
  return text.split("\n").map((line) => /^(\d+):(\d+) (\S+) flows to (\S+) by (\w+) at (\d+):(\d+)$/.exec(line))
    .filter(Boolean).map((found) => ({ from: found[3], to: found[4], rule: found[5],
      read: { line: +found[1], column: +found[2] }, written: { line: +found[6], column: +found[7] } }));
}

/** The lines of warnings: position and sentence. */
export const warnings = (lines) => lines.map((line) => /^(\d+):(\d+) warning: (.*)$/.exec(line)).filter(Boolean)
  .map((found) => ({ line: +found[1], column: +found[2], text: found[3] }));

/** The lines of `classes`: position, name and class. */
export function classLines(output) {
  return output.split("\n").map((line) => /^(\d+):(\d+) (\w+) : (\w+)$/.exec(line)).filter(Boolean)
    .map((found) => ({ line: +found[1], column: +found[2], name: found[3], class: found[4] }));
}

/** The pairs of `flows --walks`, each with the lines of its walk. */
export function flowPairs(output) {
  const pairs = [];
  for (const line of output.split("\n").filter(Boolean)) {
    const found = /^(\S+) : (\w+) flows to (\S+) : (\w+) (allowed|refused) (\d+)$/.exec(line);
    if (found) {
      pairs.push({ from: found[1], fromClass: found[2], to: found[3], toClass: found[4], verdict: found[5],
        count: +found[6], walk: [] });
    } else if (pairs.length) {
      pairs[pairs.length - 1].walk.push(...steps(line));
    }
  }
  return pairs;
}

/** A lattice from the graph of `draw`: the classes in their order, and the pairs that are directly above each other. */
export function lattice(output) {
  const classes = [...output.matchAll(/^ {2}"(\w+)"(?: \[[^\]]*\])?;$/gm)].map((found) => found[1]);
  const covers = [...output.matchAll(/^ {2}"(\w+)" -> "(\w+)";$/gm)].map((found) => [found[1], found[2]]);
  const below = new Map(classes.map((name) => [name, new Set([name])]));
  for (let round = 0; round < classes.length; round += 1) {
    for (const [low, high] of covers) for (const name of below.get(low)) below.get(high).add(name);
  }
  const height = (name) => Math.max(0, ...covers.filter(([, high]) => high === name).map(([low]) => height(low) + 1));
  const level = new Map(classes.map((name) => [name, height(name)]));
  const upwards = [...classes].sort((one, other) => level.get(one) - level.get(other));
  return { classes, covers, below, level, upwards };
}

const side = (text) => {
  const found = /^(\w+) = (-?\d+)$/.exec(text);
  return found ? { name: found[1], word: found[2] } : { name: "", word: text };
};

/** The rows of `leak` or of `compare`: the observer, the rows before and those after, each with both sides. */
export function twoRuns(text) {
  const result = { observer: "", before: [], after: [] };
  let rows = result.before;
  for (const line of text.split("\n").filter(Boolean)) {
    const head = /^(\w+) sees( before| after)?$/.exec(line) || /^leak at (\w+)$/.exec(line);
    if (head) {
      result.observer = head[1];
      if (head[2] !== " before" && line.includes(" sees")) rows = result.after;
    } else if (/^[ *] /.test(line)) {
      const cut = line.slice(2).split(line.includes(" | ") ? " | " : / {2,}/);
      const left = side(cut[0]), right = side(cut[1] ?? cut[0]);
      rows.push({ name: left.name, left: left.word, right: right.word, differs: line[0] === "*" });
    }
  }
  return result;
}

/** A line of `compare --steps`: of which run it is (both, the first or the second), its place, text, word and class. */
function stepOf(line) {
  const found = /^([ <>]) (\d+):(\d+) +(.+?) {2,}(?:is|(\w+) =) (-?\d+) : (\w+)$/.exec(line);
  return found && { of: found[1], line: +found[2], column: +found[3], text: found[4], name: found[5] ?? "",
    word: found[6], class: found[7] };
}

/**
 * The steps of `compare --steps`, a pair for each: both runs are at one command, or only one of them is, or each has
 * its own. And for each class the place of the first difference that it sees, or null.
 */
export function inStep(output) {
  const lines = output.split("\n"), list = lines.map(stepOf).filter(Boolean), pairs = [];
  const isSame = (one, other) => one && other && one.line === other.line && one.column === other.column;
  for (let now = 0; now < list.length;) {
    const take = (of) => {
      const begin = now;
      while (list[now]?.of === of) now += 1;
      return list.slice(begin, now);
    };
    pairs.push(...take(" ").map((both) => ({ first: both, second: both, kind: "same" })));
    const first = take("<"), second = take(">"), last = [];
    if (isSame(first[0], second[0])) pairs.push({ first: first.shift(), second: second.shift(), kind: "differs" });
    while (isSame(first[first.length - 1], second[second.length - 1])) {
      last.unshift({ first: first.pop(), second: second.pop(), kind: "differs" });
    }
    for (let at = 0; at < Math.max(first.length, second.length); at += 1) {
      pairs.push({ first: first[at], second: second[at], kind: "apart" });
    }
    pairs.push(...last);
  }
  const seen = lines.map((line) => /^(\w+) sees (?:no difference|a difference at (\d+):(\d+))$/.exec(line))
    .filter(Boolean).map(([, name, line, column]) => ({ class: name, place: line ? { line: +line, column: +column }
      : null }));
  return { pairs, seen };
}

/** How a monitored run ended: the labels of its words, or the place, the variable and the classes where it stopped. */
export function monitored(output) {
  const stop = /^(\d+):(\d+) (\w+) : (\w+) may not be assigned under (\w+)$/m.exec(output);
  const labels = [...output.matchAll(/^(\w+) = -?\d+ : (\w+)$/gm)].map(([, name, label]) => ({ name, label }));
  return { labels, stop: stop && { line: +stop[1], column: +stop[2], name: stop[3], label: stop[4], under: stop[5] } };
}

/** The steps of a trace, and the lines of the store after them. */
export function trace(output) {
  const found = [], rest = [];
  for (const line of output.split("\n").filter(Boolean)) {
    const step = /^(\d+): ([A-Z]+)(?: (-?\d+))? \|(.*)$/.exec(line);
    if (step) {
      found.push({ at: +step[1], name: step[2], operand: step[3] ?? "", stack: step[4].split(" ").filter(Boolean) });
    } else {
      rest.push(line);
    }
  }
  return { steps: found, rest };
}

/** A listing: its globals with their classes, its slots and its instructions. */
export function listing(output) {
  const lines = output.split("\n").filter(Boolean);
  const count = (name) => +(lines.find((line) => line.startsWith(`${name} `)) ?? "").slice(name.length + 1);
  return {
    slots: count("slots"),
    globals: lines.map((line) => /^(\w+) : (\w+)$/.exec(line)).filter(Boolean).map((found) => found[1]),
    instructions: lines.map((line) => /^\d+: (.*)$/.exec(line)).filter(Boolean).map((found) => found[1]),
  };
}

/** The words of a store text or of a simple store file, by their names. */
export function words(text) {
  return new Map([...text.matchAll(/^\s*(\w+)\s*=\s*([+-]?\d+)\s*(?:#.*)?$/gm)].map((found) => [found[1], found[2]]));
}

/** Whether a TOML text has the key of a lattice file. */
export const isLattice = (text) => /^\s*classes\s*=/m.test(text) && /^\s*below\s*=/m.test(text);

/** The program's prose on one line each: blanks and line ends in quoted parts are made one blank. */
export const joined = (text) => text.replace(/\s+/g, " ");
