// Shows what the program says to a reader at a terminal as text of a page: paragraphs, lists, code
// and links to places.
import { button, h } from "./dom.js";

const PLACE = /\b(?:text\.vsi|lattice\.toml|store\.toml|other\.toml):(\d+):(\d+)\b/;
const PLACE_LINE = /^(?:text\.vsi|lattice\.toml|store\.toml|other\.toml):(?:(\d+):(\d+))?$/;
const FRAME = /^ *(?:\d+)? \| /;
const ALSO = /^Also at (\d+):(\d+): (.*)$/;
const RAISE = /^(\d+):(\d+) (\w+ : \w+ -> \w+.*)$/;
const LEAD = /^`([^`]+)` flows to (?:`([^`]+)`|the ending of loops):/;
const BEGINS = new RegExp("^(?:Hint|Expected here|Also |Or add |This flow goes away|The whole text"
  + "|This language|Declaring |`[^`]+` flows to )");
// Words of a shell, with the words of this page.
const SHELL = [
  [/\bMore: vsi explain \w+\.?/g, ""],
  [/`vsi leak` with the same files looks/g, "The pane Leak looks"],
  [/ \(`vsi mend`\)/g, ""],
  [/\bGive a larger --budget\b/g, "Give a larger budget"],
  [/\bWith --steady\b/g, "Under the steady profile"],
  [/\bWith --strict\b/g, "Under the strict profile"],
  [/\bthe lattice file\b/g, "the lattice"],
  [/\bA lattice file\b/g, "A lattice"],
];
// A sentence with one of these is about a shell, and the page has nothing for it.
const OPTIONS = "budget|class|explain|full-store|input|interface|json|outputs|release|save|set"
  + "|steady|store|strict|unbounded";
const COMMAND = new RegExp(`\`vsi [a-z]|(?:^|[\\s\`])--(?:${OPTIONS})\\b`);

/** A paragraph in the words of this page. */
export function paged(text) {
  const read = SHELL.reduce((now, [pattern, by]) => now.replace(pattern, by), text);
  const sentences = read.replace(/([.:]) (?=[A-Z`])/g, "$1\n").split("\n");
  return sentences.filter((sentence) => !COMMAND.test(sentence)).join(" ").trim();
}

/** The parts of a paragraph: code without its quotes, and links to places. */
export function inline(text, go) {
  return text.split(/(`[^`]+`)/).map((part) => {
    if (/^`.+`$/s.test(part)) return h("code", {}, part.slice(1, -1));
    const found = PLACE.exec(part);
    if (!found) return part;
    const rest = part.slice(found.index + found[0].length);
    const to = place(+found[1], +found[2], go, found[0].startsWith("text"));
    return [part.slice(0, found.index), to, ...inline(rest, go)];
  });
}

/** A place as a link that leads there, where it is one of the program. */
export function place(line, column, go, isOfText = true) {
  const label = `line ${line}, column ${column}`;
  return isOfText ? button(label, () => go(line, column), { class: "place" }) : label;
}

/** Cuts the lines of a text into blocks: places, paragraphs, items and code. */
export function blocks(text) {
  const found = [];
  let isOpen = false;
  const add = (block) => {
    found.push(block);
    isOpen = false;
  };
  for (const line of text.split("\n")) {
    const last = found[found.length - 1];
    const raise = RAISE.exec(line), at = PLACE_LINE.exec(line), also = ALSO.exec(line);
    if (!line.trim()) add({ kind: "end" });
    else if (at) add({ kind: "place", line: +(at[1] ?? 0), column: +(at[2] ?? 0) });
    else if (FRAME.test(`${line} `) && found.some(({ kind }) => kind === "place")) isOpen = false;
    else if (also) {
      const said = also[3].replace(/^(?=\d+ \w+\.$)/, "refusal ");
      add({ kind: "also", line: +also[1], column: +also[2], text: said });
      isOpen = true;
    } else if (raise) add({ kind: "raise", line: +raise[1], column: +raise[2], text: raise[3] });
    else if (line.startsWith("- ")) add({ kind: "item", text: line.slice(2) });
    else if (/^ {2}\S/.test(line) && last?.kind === "item") last.text += ` ${line.trim()}`;
    else if (/^ {2}\S/.test(line)) add({ kind: "code", text: line.slice(2) });
    else if (isOpen && !BEGINS.test(line)) last.text += ` ${line}`;
    else {
      add({ kind: "text", text: line });
      isOpen = true;
    }
  }
  return found;
}

/** The elements of blocks. Lines of code one after another are one element, and so are items. */
export function elements(list, go) {
  const found = [];
  let group = null;
  const into = (kind, make) => {
    if (group?.kind !== kind) {
      group = { kind, element: make() };
      found.push(group.element);
    }
    return group.element;
  };
  for (const block of list) {
    const text = block.kind === "code" ? block.text : paged(block.text ?? "");
    if (["also", "item", "raise"].includes(block.kind)) {
      const to = block.kind === "item" ? inline(text, go) : block.kind === "also"
        ? ["also at ", place(block.line, block.column, go), ": ", inline(text, go)]
        : [h("code", {}, text), ", at ", place(block.line, block.column, go)];
      if (text) into("list", () => h("ul", {})).append(h("li", {}, to));
    } else if (block.kind === "code") into("code", () => h("pre", {})).append(`${text}\n`);
    else if (block.kind === "text" && text) {
      group = null;
      found.push(h("p", {}, inline(text, go)));
    }
  }
  return found;
}

/** A text of the program as elements. */
export const prose = (text, go) => elements(blocks(text), go);

/** Cuts the first sentence from blocks, for a headline; answers it without its stop. */
export function headline(list, most = 90) {
  const first = list.find(({ kind }) => kind === "text");
  const sentence = /^(.*?[^.])\.(?: |$)/.exec(paged(first?.text ?? ""))?.[1] ?? "";
  if (!sentence || sentence.length > most) return "";
  first.text = paged(first.text).slice(sentence.length + 1).trim();
  return sentence.replace(/^(?:The|There|This|An?)\b/, (word) => word.toLowerCase());
}

/** The flows of an explanation, each with the blocks of its steps and its advice; and the rest. */
export function flows(text) {
  const parts = [[]], found = [], rest = [];
  for (const block of blocks(text)) {
    if (block.kind === "end" || block.kind === "text" && LEAD.test(block.text)) parts.push([]);
    if (block.kind !== "end") parts[parts.length - 1].push(block);
  }
  for (const part of parts) {
    const lead = part[0]?.kind === "text" ? part[0].text : "";
    const pair = LEAD.exec(lead);
    if (!pair) {
      rest.push(...part);
      continue;
    }
    const isAdvice = ({ kind, text }) => kind === "text" && text.startsWith("This flow goes away");
    const at = part.findIndex(isAdvice);
    const end = at < 0 ? part.length : at, walk = part.slice(1, end), advice = part.slice(end + 1);
    found.push({ from: pair[1], to: pair[2] ?? "(loop)", lead, walk, advice });
  }
  return { flows: found, rest };
}

/** The sentences of a walk after a place: those about the step that reads there. */
export function saidOf(walk, line, column) {
  const isThere = (block) =>
    block.kind === "place" && block.line === line && block.column === column;
  const at = walk.findIndex(isThere);
  const after = at < 0 ? [] : walk.slice(at + 1);
  const end = after.findIndex((block) => block.kind === "place");
  return after.slice(0, end < 0 ? after.length : end).map((block) => block.text ?? "").join(" ")
    .replace(/ ?The assignment is here:$/, "").trim();
}
