// Makes elements of the page. Text always becomes text: nothing here reads markup.

const SVG = "http://www.w3.org/2000/svg";
const SVG_TAGS = new Set(["svg", "g", "line", "rect", "text", "title"]);

/** An element with attributes and children; `on` has listeners, a child is an element or text. */
export function h(tag, attributes = {}, ...children) {
  const element = SVG_TAGS.has(tag) ? document.createElementNS(SVG, tag) : document.createElement(tag);
  for (const [name, value] of Object.entries(attributes)) {
    if (name === "on") {
      for (const [event, listener] of Object.entries(value)) element.addEventListener(event, listener);
    } else if (value === true) {
      element.setAttribute(name, "");
    } else if (value !== false && value !== null && value !== undefined) {
      element.setAttribute(name, value);
    }
  }
  element.append(...children.flat(Infinity).filter((child) => child !== null && child !== undefined));
  return element;
}

/** The element of an id. */
export const at = (id) => document.getElementById(id);

/** Puts children in place of those that an element has. */
export function fill(element, ...children) {
  element.replaceChildren(...children.flat(Infinity).filter((child) => child !== null && child !== undefined));
}

/** A button with a label and what it does; it is marked as busy until that is done. */
export function button(label, press, attributes = {}) {
  const element = h("button", { type: "button", ...attributes, on: { click: async (event) => {
    element.setAttribute("aria-busy", "true");
    try {
      await press(event);
    } finally {
      element.removeAttribute("aria-busy");
    }
  } } }, label);
  return element;
}

/** Buttons after a slider that move it; `show` follows each move. `ids` has the ids of buttons by their labels. */
export function slide(range, show, ids = {}) {
  const most = Number.MAX_SAFE_INTEGER;
  range.addEventListener("input", show);
  for (const [label, change] of [["First", -most], ["Back", -1], ["Next", 1], ["Last", most]]) {
    range.parentElement.append(button(label, () => {
      range.value = String(Math.min(Math.max(0, Number(range.value) + change), Number(range.max)));
      show();
    }, ids[label] ? { id: ids[label] } : {}));
  }
}

/** A class as a small label in its colour. */
export const chip = (name, number) => h("span", { class: `chip k${number % 8}` }, name);

/** A table from its heads and its rows of cells; a row is an array, with `mark` as its class if it has one. */
export function table(caption, heads, rows, attributes = {}) {
  return h("div", { class: "scroll", tabindex: "0", role: "group", "aria-label": caption },
    h("table", attributes,
      h("caption", { class: "hidden" }, caption),
      h("thead", {}, h("tr", {}, heads.map((head) => h("th", { scope: "col" }, head)))),
      h("tbody", {}, rows.map((row) => h("tr", { class: row.mark || null },
        row.map((cell, index) => (index === 0 ? h("th", { scope: "row" }, cell) : h("td", {}, cell))))))));
}

/** A paragraph that a screen reader reads out when its text changes. */
export function say(element, text, mark = "") {
  element.textContent = text;
  element.className = mark;
}
