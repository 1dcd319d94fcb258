"""Function bodies of JavaScript that inspect the page: its rows, its contrast, its frames."""

# Return the texts of the drawn rows, cell by cell.
ROWS = """
const rows = [...document.querySelectorAll(`.${arguments[0]} .row`)];
return rows.map((row) => [...row.children].map((it) => it.textContent));
"""

# Type a text into a search.
TYPED = """
const field = document.querySelector(`[data-part="${arguments[0]}"]`);
field.value = arguments[1];
field.dispatchEvent(new Event("input"));
"""

# Count elements that a source's texts could have made, where the page shows these texts.
STRANGE = """
const kinds = "script, img, iframe, object, embed, base, form, style, link, meta";
return document.querySelector("main").querySelectorAll(kinds).length;
"""

# Return the figures of the table of the time line, and the names of differing bodies.
TABLE = """
const rows = [...document.querySelectorAll("details tbody tr")];
return rows.map((it) => [...it.children].slice(1).map((cell) => Number(cell.textContent)));
"""
DIFFERING = "return [...document.querySelectorAll('.differing bdi')].map((it) => it.textContent)"

# Return the levels of the headings.
LEVELS = """
const headings = [...document.querySelectorAll("h1, h2, h3, h4")];
return headings.filter((it) => it.checkVisibility()).map((it) => Number(it.localName[1]));
"""

# Return the classes of visible controls.
PRESSED = """
const every = [...document.querySelectorAll(".actions button, .quiet, .search")];
return every.filter((it) => it.checkVisibility()).map((it) => it.className);
"""

# Return pairs of colours, their elements and their contrast by WCAG 2.2: texts, bars and edges of controls.
CONTRAST = r"""
const parsed = (text) => (text.match(/[\d.]+/g) ?? []).map(Number);
const light = (rgb) => {
  const [r, g, b] = rgb.map((it) => it / 255).map((it) => (it <= 0.04045 ? it / 12.92 : ((it + 0.055) / 1.055) ** 2.4));
  return 0.2126 * r + 0.7152 * g + 0.0722 * b;
};
const behind = (element) => {
  for (let it = element; it; it = it.parentElement) {
    const [r, g, b, a = 1] = parsed(getComputedStyle(it).backgroundColor);
    if (a === 1) return [r, g, b];
  }
  return [255, 255, 255];
};
const ratio = (one, other) => {
  const [low, high] = [light(one), light(other)].sort((a, b) => a - b);
  return (high + 0.05) / (low + 0.05);
};
const found = new Map();
const note = (kind, element, colour, back, least) => {
  const text = element.textContent.trim().slice(0, 30);
  const where = `${element.localName}.${element.getAttribute("class") ?? ""} ${text}`;
  const it = { kind, where, ratio: ratio(colour, back), least };
  const key = `${kind} ${colour} ${back}`;
  if (!found.has(key)) found.set(key, it);
};
const isSeen = (it) => it.checkVisibility({ visibilityProperty: true }) && it.getClientRects().length > 0;
const texts = document.createTreeWalker(document.body, NodeFilter.SHOW_TEXT);
while (texts.nextNode()) {
  const it = texts.currentNode.parentElement;
  if (!texts.currentNode.data.trim() || !isSeen(it)) continue;
  const style = getComputedStyle(it);
  const isLarge = parseFloat(style.fontSize) >= 24;
  const colour = parsed(it.localName === "text" ? style.fill : style.color).slice(0, 3);
  note("text", it, colour, behind(it), isLarge ? 3 : 4.5);
}
for (const it of document.querySelectorAll("svg rect:not(.brush)")) {
  note("bar", it, parsed(getComputedStyle(it).fill).slice(0, 3), behind(it), 3);
}
for (const it of document.querySelectorAll("button:not([disabled]):not([aria-disabled=true]), input")) {
  const style = getComputedStyle(it);
  const [r, g, b, a = 1] = parsed(style.borderTopColor);
  const hasEdge = a === 1 && parseFloat(style.borderTopWidth) > 0;
  if (isSeen(it) && hasEdge) note("edge", it, [r, g, b], behind(it.parentElement), 3);
}
for (const it of document.querySelectorAll("input")) {
  note("placeholder", it, parsed(getComputedStyle(it, "::placeholder").color).slice(0, 3), behind(it), 4.5);
}
return [...found.values()];
"""

# Scroll the list of resources for some seconds, by screens and to distant rows; return the duration of every frame.
SCROLLED = r"""
const done = arguments[0];
const view = document.querySelector(".resources .view");
const frames = [];
let [last, drawn, begun] = [0, 0, performance.now()];
const step = (now) => {
  if (last) frames.push(now - last);
  last = now;
  const box = view.getBoundingClientRect();
  drawn += document.elementFromPoint(box.left + 30, box.top + 100)?.closest(".row") ? 1 : 0;
  if (frames.length >= 120 || performance.now() - begun > 4_000) {
    done({ frames, drawn, rows: document.querySelectorAll(".resources .row").length });
    return;
  }
  view.scrollTop = frames.length % 2 ? view.scrollTop + 600 : ((frames.length * 7919) % 120) / 120 * view.scrollHeight;
  requestAnimationFrame(step);
};
view.scrollIntoView();
requestAnimationFrame(step);
"""

# Return the milliseconds until the last list arrived and until the first row was drawn.
SHOWN = r"""
const lists = performance.getEntriesByType("resource").filter((it) => /list/.test(it.name) && it.name.endsWith(".xml"));
return { came: Math.max(...lists.map((it) => it.responseEnd)), shown: window.firstRow ?? 0, lists: lists.length };
"""

# Return elements that extend beyond the right edge of the window, or are cut off where they cannot scroll.
WIDER = r"""
const found = [];
const wide = document.documentElement.scrollWidth;
if (wide > innerWidth) found.push(`the page is ${wide} wide`);
for (const it of document.querySelectorAll("main *, header *, footer *")) {
  if (!it.checkVisibility() || it.closest("svg, .row, .wide, .unseen, code, .tabs, .chips")) continue;
  const box = it.getBoundingClientRect();
  const isWider = box.width > 1 && box.right > innerWidth + 1;
  if (isWider) found.push(`${it.localName}.${it.className} ends at ${Math.round(box.right)}`);
}
return found;
"""

# Return the role or kind of the focused element, and its name.
FOCUSED = r"""
const it = document.activeElement;
const name = it.getAttribute("aria-label") ?? it.dataset.part ?? it.textContent;
return `${it.getAttribute("role") ?? it.localName} ${name.trim().slice(0, 40)}`;
"""

# Read texts by the page's own reader and by the browser's parser; return the differences.
READ_TWICE = r"""
const [texts, done] = arguments;
const SITEMAP = "http://www.sitemaps.org/schemas/sitemap/0.9";
const TERMS = "http://www.openarchives.org/rs/terms/";
const said = (element) => (element ? Object.fromEntries([...element.attributes].map((it) => [it.name, it.value])) : {});
const isOf = (space, name) => (it) => it.namespaceURI === space && it.localName === name;
const child = (element, space, name) => [...element.children].find(isOf(space, name));
const byBrowser = (text) => {
  const document = new DOMParser().parseFromString(text, "application/xml");
  const root = document.documentElement;
  if (document.querySelector("parsererror") || root.namespaceURI !== SITEMAP) return "refused";
  if (!["urlset", "sitemapindex"].includes(root.localName)) return "refused";
  const isIndex = root.localName === "sitemapindex";
  const entries = [...root.children].filter(isOf(SITEMAP, isIndex ? "sitemap" : "url"));
  const textOf = (it, name) => child(it, SITEMAP, name)?.textContent ?? "";
  const read = (it) => [textOf(it, "loc"), textOf(it, "lastmod"), said(child(it, TERMS, "md"))];
  return JSON.stringify([isIndex, said(child(root, TERMS, "md")), entries.map(read)]);
};
import("/site/documents.js").then(({ documentOf }) => {
  const byPage = (text) => {
    try {
      const it = documentOf(text, "");
      return JSON.stringify([it.isIndex, it.said, it.entries.map((entry) => [entry.loc, entry.lastmod, entry.said])]);
    } catch (fault) {
      return fault.kind === "wrong" ? "refused" : String(fault);
    }
  };
  const pairs = texts.map((it) => [byBrowser(it), byPage(it)]);
  const shortened = pairs.map((it, at) => [at, ...it.map((text) => text.slice(0, 300))]);
  const differing = shortened.filter((_, at) => pairs[at][0] !== pairs[at][1]);
  const refused = pairs.filter(([, page]) => page === "refused").length;
  done({ differing, refused, read: pairs.length - refused });
}).catch((fault) => done({ differing: [String(fault)], read: 0, refused: 0 }));
"""

# Click and touch every control.
POKED = r"""
for (const it of document.querySelectorAll("main button, main summary")) it.click();
const field = document.querySelector(".field");
const box = field.getBoundingClientRect();
for (const kind of ["pointermove", "pointerdown", "pointermove", "pointerup"]) {
  const clientX = box.left + 40 + 100 * (kind === "pointerup");
  field.dispatchEvent(new PointerEvent(kind, { pointerId: 1, clientX, clientY: box.top + 20, bubbles: true }));
}
for (const key of ["+", "-", "ArrowLeft", "ArrowRight", "0"]) {
  field.dispatchEvent(new KeyboardEvent("keydown", { key, bubbles: true }));
}
for (const view of document.querySelectorAll(".view")) {
  for (const key of ["ArrowDown", "End", "Home", "PageUp", "Enter", "Escape"]) {
    view.dispatchEvent(new KeyboardEvent("keydown", { key, bubbles: true }));
  }
}
const search = document.querySelector("[data-part=search]");
for (const words of ["no such name", ""]) {
  search.value = words;
  search.dispatchEvent(new Event("input"));
  document.querySelector(".card [data-part=back]")?.click();
}
"""
