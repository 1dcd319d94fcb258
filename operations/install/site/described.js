// What the page shows as JSON-LD of schema.org, for search engines: a Dataset for a source, a DataCatalog for a collection.

import { made } from "./elements.js";
import { NEVER, counted } from "./formats.js";

/** @typedef {import("./about.js").About} About */
/** @typedef {import("./panel.js").Panel} Panel */

const block = made("script");
block.type = "application/ld+json";

/**
 * Puts the description of the sources that were read into the page's head; it needs no request.
 * @param {string} here
 * @param {string} title
 * @param {About} about
 * @param {Panel[]} panels
 */
export function describe(here, title, about, panels) {
  const read = panels.filter((it) => it.holding);
  const whole = { name: title, url: `${here}/`, ...operatorOf(about) };
  const value = panels.length > 1
    ? { ...whole, "@type": "DataCatalog", dataset: read.map((it) => ({ ...datasetOf(it), name: it.label })) }
    : { ...(read[0] && datasetOf(read[0])), ...whole };
  // (no text of a source or of the operator ends the element where the page is saved)
  block.textContent = JSON.stringify({ "@context": "https://schema.org", ...value }).replaceAll("<", "\\u003c");
  if (read.length) document.head.append(block);
}

/**
 * Who runs the site, and the licence, as far as the operator's file says it.
 * @param {About} about
 */
function operatorOf({ keeper, contact, licence, licence_address: address }) {
  const way = contact && { [contact.includes("@") ? "email" : "url"]: contact };
  return { ...(keeper && { publisher: { "@type": "Organization", name: keeper, ...way } }),
    ...((address || licence) && { license: address || licence }) };
}

/** @param {Panel} panel */
function datasetOf({ base, holding }) {
  if (!holding) return {};
  const { resources, bytes, changed, addresses } = holding;
  return { "@type": "Dataset", url: `${base}/`, size: `${counted(resources.length, "resource")}, ${bytes} bytes`,
    ...(changed !== NEVER && { dateModified: changed }),
    distribution: { "@type": "DataDownload", encodingFormat: "application/xml", contentUrl: addresses.listed } };
}
