// Which line of a program each instruction comes from: the compiler's own steps, once more, with
// the lines. Nobody has to trust them: they are used only where the instructions are those that
// the program has listed.
import { tokens } from "./reading.js";

const NAMES = { "+": "ADD", "-": "SUB", "*": "MUL", "=": "EQ", "<": "LT" };
const OPERATORS = {
  "+": (one, other) => BigInt.asIntN(64, one + other),
  "-": (one, other) => BigInt.asIntN(64, one - other),
  "*": (one, other) => BigInt.asIntN(64, one * other),
  "=": (one, other) => BigInt(one === other),
  "<": (one, other) => BigInt(one < other),
};
const union = (...sets) => new Set(sets.flatMap((set) => [...set]));

/** Reads a program as a tree of commands, each with its line and each name as its variable. */
class Reader {
  constructor(text) {
    this.tokens = tokens(text).filter(({ kind }) => kind !== "blank" && kind !== "comment");
    this.now = 0;
    this.scope = new Map();
    this.count = 0;
  }

  get next() {
    return this.tokens[this.now] ?? { kind: "end", text: "" };
  }

  take(text = null) {
    const token = this.next;
    const isRight = text === null ? token.kind === "name" : token.text === text;
    if (!isRight) throw new SyntaxError(token.text);
    this.now += 1;
    return token;
  }

  program() {
    while (this.next.text === "var") this.global();
    const body = this.sequence();
    if (this.next.kind !== "end") throw new SyntaxError(this.next.text);
    return body;
  }

  global() {
    this.take("var");
    this.scope.set(this.take().text, { isGlobal: true, slot: this.count });
    this.count += 1;
    this.take(":");
    this.take();
    this.take(";");
  }

  sequence() {
    const found = [...this.simple()];
    while (this.next.text === ";") {
      this.take(";");
      found.push(...this.simple());
    }
    return found;
  }

  simple() {
    const { line, text } = this.next;
    if (text === "if") return [this.conditional(line)];
    if (text === "while") return [this.loop(line)];
    if (text === "letvar") return [this.local(line)];
    if (text === "{") {
      this.take("{");
      const found = this.sequence();
      this.take("}");
      return found;
    }
    const variable = this.variable();
    this.take(":=");
    return [{ kind: "assign", line, variable, value: this.expression() }];
  }

  variable() {
    const variable = this.scope.get(this.take().text);
    if (!variable) throw new SyntaxError("unbound");
    return variable;
  }

  conditional(line) {
    this.take("if");
    const guard = this.expression();
    this.take("then");
    const first = this.simple();
    const end = this.take("else").line;
    return { kind: "if", line, end, guard, first, second: this.simple() };
  }

  loop(line) {
    this.take("while");
    const guard = this.expression();
    this.take("do");
    return { kind: "while", line, guard, body: this.simple() };
  }

  local(line) {
    this.take("letvar");
    const name = this.take().text;
    if (this.next.text === ":") {
      this.take(":");
      this.take();
    }
    this.take(":=");
    const value = this.expression();
    this.take("in");
    const outer = this.scope, variable = { isGlobal: false, slot: 0 };
    this.scope = new Map(outer).set(name, variable);
    const body = this.simple();
    this.scope = outer;
    return { kind: "letvar", line, variable, value, body };
  }

  expression() {
    const left = this.sum();
    return ["=", "<"].includes(this.next.text) ? this.operation(left, () => this.sum()) : left;
  }

  sum() {
    let found = this.term();
    while (["+", "-"].includes(this.next.text)) found = this.operation(found, () => this.term());
    return found;
  }

  term() {
    let found = this.atom();
    while (this.next.text === "*") found = this.operation(found, () => this.atom());
    return found;
  }

  operation(left, read) {
    const { text, line } = this.take(this.next.text);
    return { kind: "operation", line, symbol: text, left, right: read() };
  }

  atom() {
    const { kind, line, text } = this.next;
    if (kind === "number") {
      this.now += 1;
      return { kind, line, value: BigInt(text) };
    }
    if (text !== "(") return { kind: "read", line, variable: this.variable() };
    this.take("(");
    const inner = this.expression();
    this.take(")");
    return inner;
  }
}

/** An expression whose operators on two numbers are the numbers that they give. */
function foldedValue(tree) {
  if (tree.kind !== "operation") return tree;
  const left = foldedValue(tree.left), right = foldedValue(tree.right);
  return left.kind === "number" && right.kind === "number"
    ? { kind: "number", line: left.line, value: OPERATORS[tree.symbol](left.value, right.value) }
    : { ...tree, left, right };
}

/** Commands after folding: an `if` with a number is one of its branches, a loop with 0 nothing. */
function folded(commands) {
  return commands.flatMap((tree) => {
    if (tree.kind === "assign") return [{ ...tree, value: foldedValue(tree.value) }];
    if (tree.kind === "letvar") {
      return [{ ...tree, value: foldedValue(tree.value), body: folded(tree.body) }];
    }
    const guard = foldedValue(tree.guard);
    if (tree.kind === "while") {
      const isNothing = guard.kind === "number" && guard.value === 0n;
      return isNothing ? [] : [{ ...tree, guard, body: folded(tree.body) }];
    }
    if (guard.kind === "number") return folded(guard.value === 0n ? tree.second : tree.first);
    return [{ ...tree, guard, first: folded(tree.first), second: folded(tree.second) }];
  });
}

/** The variables that an expression reads. */
function reads(tree) {
  if (tree.kind === "operation") return union(reads(tree.left), reads(tree.right));
  return new Set(tree.kind === "read" ? [tree.variable] : []);
}

/** The variables that commands read, at any depth. */
const allReads = (commands) => union(...commands.map((tree) => union(
  reads(tree.guard ?? tree.value),
  allReads([...(tree.first ?? []), ...(tree.second ?? []), ...(tree.body ?? [])]))));

/** The commands without assignments to locals that nothing reads later, and what is live before. */
function kept(commands, live) {
  const found = [];
  for (const tree of [...commands].reverse()) {
    if (tree.kind === "assign") {
      if (!tree.variable.isGlobal && !live.has(tree.variable)) continue;
      const others = [...live].filter((one) => one !== tree.variable || one.isGlobal);
      live = union(others, reads(tree.value));
      found.push(tree);
    } else if (tree.kind === "if") {
      const [first, before] = kept(tree.first, live), [second, otherwise] = kept(tree.second, live);
      found.push({ ...tree, first, second });
      live = union(before, otherwise, reads(tree.guard));
    } else if (tree.kind === "letvar") {
      const [body, before] = kept(tree.body, live);
      found.push({ ...tree, body });
      live = union([...before].filter((one) => one !== tree.variable), reads(tree.value));
    } else {
      live = union(live, reads(tree.guard), allReads(tree.body));
      found.push({ ...tree, body: keptInLoop(tree.body, live) });
    }
  }
  return [found.reverse(), live];
}

/** The commands that stay within a loop. */
function keptInLoop(commands, live) {
  const stays = ({ kind, variable }) =>
    kind !== "assign" || variable.isGlobal || live.has(variable);
  return commands.filter(stays)
    .map((tree) => {
      if (tree.kind === "assign") return tree;
      if (tree.kind === "while") return { ...tree, body: keptInLoop(tree.body, live) };
      if (tree.kind === "if") {
        const first = keptInLoop(tree.first, live), second = keptInLoop(tree.second, live);
        return { ...tree, first, second };
      }
      const inner = new Set([...live].filter((one) => one !== tree.variable));
      if (allReads(tree.body).has(tree.variable)) inner.add(tree.variable);
      return { ...tree, body: keptInLoop(tree.body, inner) };
    });
}

/** Writes the instructions of commands, each with its line. */
class Writer {
  constructor() {
    this.code = [];
  }

  write(name, line, operand = null) {
    return this.code.push({ name, line, operand }) - 1;
  }

  land(jump) {
    this.code[jump].operand = this.code.length;
  }

  value(tree) {
    if (tree.kind === "number") this.write("PUSH", tree.line, tree.value);
    else if (tree.kind === "read") this.write("LOAD", tree.line, tree.variable.slot);
    else {
      this.value(tree.left);
      this.value(tree.right);
      this.write(NAMES[tree.symbol], tree.line);
    }
  }

  commands(list, depth) {
    for (const tree of list) this[tree.kind](tree, depth);
  }

  assign(tree) {
    this.value(tree.value);
    this.write("STORE", tree.line, tree.variable.slot);
  }

  letvar(tree, depth) {
    this.value(tree.value);
    tree.variable.slot = depth;
    this.write("STORE", tree.line, depth);
    this.commands(tree.body, depth + 1);
  }

  if(tree, depth) {
    this.value(tree.guard);
    const toSecond = this.write("JZ", tree.line);
    this.commands(tree.first, depth);
    const toEnd = this.write("JMP", tree.end);
    this.land(toSecond);
    this.commands(tree.second, depth);
    this.land(toEnd);
  }

  while(tree, depth) {
    const start = this.code.length;
    this.value(tree.guard);
    const toEnd = this.write("JZ", tree.line);
    this.commands(tree.body, depth);
    this.write("JMP", tree.line, start);
    this.land(toEnd);
  }
}

/** The line of each listed instruction, or none if they aren't those that are computed here. */
export function lines(text, listed) {
  try {
    const reader = new Reader(text), writer = new Writer();
    writer.commands(kept(folded(reader.program()), new Set())[0], reader.count);
    writer.write("HALT", null);
    const written = writer.code.map(({ name, operand }) =>
      (operand === null ? name : `${name} ${operand}`));
    return written.join("\n") === listed.join("\n") ? writer.code.map(({ line }) => line) : [];
  } catch {
    return [];
  }
}
