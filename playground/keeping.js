// What stays in the browser: progress and drafts in its storage, a shared text in the address.

const KEY = "vsi-playground.";

/** A kept value, or `otherwise` where there is none or the browser keeps nothing; `isOfTab` asks for this tab's. */
export function kept(name, otherwise, isOfTab = false) {
  try {
    const text = (isOfTab ? sessionStorage : localStorage).getItem(KEY + name);
    return text === null ? otherwise : JSON.parse(text);
  } catch {
    return otherwise;
  }
}

/** Keeps a value, if the browser lets the page. */
export function keep(name, value, isOfTab = false) {
  try {
    (isOfTab ? sessionStorage : localStorage).setItem(KEY + name, JSON.stringify(value));
  } catch {
    // Private windows keep nothing; the page works without.
  }
}

/** A value that this tab has kept, else the one that any tab has. Tabs don't overwrite each other's. */
export function keptHere(name, otherwise) {
  return kept(name, null, true) ?? kept(name, null) ?? otherwise;
}

/** Keeps a value for this tab, and for tabs that are opened later. */
export function keepHere(name, value) {
  keep(name, value, true);
  keep(name, value);
}

/** Gives the reader a file of this name, which holds a text. */
export function save(name, text) {
  const address = URL.createObjectURL(new Blob([text], { type: "application/json" }));
  const link = Object.assign(document.createElement("a"), { href: address, download: name });
  document.body.append(link);
  link.click();
  link.remove();
  setTimeout(() => URL.revokeObjectURL(address), 1000);
}

/** The fragment of an address that holds a text, its lattice and its profile. */
export function packed(value) {
  const bytes = new TextEncoder().encode(JSON.stringify(value));
  const letters = Array.from(bytes, (byte) => String.fromCharCode(byte)).join("");
  return `#t=${btoa(letters).replace(/\+/g, "-").replace(/\//g, "_").replace(/=+$/, "")}`;
}

/** What a fragment holds, or nothing where it holds no shared text. */
export function unpacked(fragment) {
  const found = /^#t=([A-Za-z0-9_-]+)$/.exec(fragment);
  if (!found) return null;
  try {
    const letters = atob(found[1].replace(/-/g, "+").replace(/_/g, "/"));
    const value = JSON.parse(new TextDecoder("utf-8", { fatal: true })
      .decode(Uint8Array.from(letters, (letter) => letter.charCodeAt(0))));
    const isText = (text) => typeof text === "string" && text.length <= 1048576;
    return value && isText(value.text) && isText(value.lattice)
      ? { text: value.text, lattice: value.lattice, profile: String(value.profile ?? "base") } : null;
  } catch {
    return null;
  }
}
