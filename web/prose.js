// What a transcript says, and texts for its offers, atoms and steps by the templates of the world.
"use strict";

/** @typedef {{ name: string, parts: Term[] }} Term */
/** @typedef {{ rules: Record<string, [string, string | null]>, words: Record<string, string>,
 *   stages: Record<string, string>, ends: Record<string, string>, start: string }} Templates */
/** @typedef {{ kind: "step" | "stage" | "blocked", text: string, choices: number }} Told */
/** @typedef {{ refusal: string, stage: string, told: Told[], offers: string[], asks: boolean, player: number,
 *   choices: number, refused: number, state: { copies: number, atom: string }[], end: string }} Run */

/** @param {string} name */
const readable = (name) => name.replace(/[/_]/g, " ");
/** @param {string} text */
const sentence = (text) => text.slice(0, 1).toUpperCase() + text.slice(1);

/** The words of a line; a space within parentheses or brackets parts nothing.
 * @param {string} text @returns {string[]} */
function wordsOf(text) {
  if (!/[([]/.test(text)) return text.split(" ");
  const words = [];
  let depth = 0, start = 0;
  for (let at = 0; at < text.length; at++) {
    const letter = text[at];
    if (letter === "(" || letter === "[") depth++;
    else if (letter === ")" || letter === "]") depth--;
    else if (letter === " " && depth === 0) { words.push(text.slice(start, at)); start = at + 1; }
  }
  return [...words, text.slice(start)];
}

/** @param {string} text @returns {Term} */
function termOf(text) {
  /** @type {Term[]} */
  const around = [];
  /** @type {Term} */
  let term = { name: "", parts: [] };
  for (const [token] of text.matchAll(/[()]|[^ ()]+/g)) {
    if (token === "(") { around.push(term); term = { name: "", parts: [] }; }
    else if (token === ")") {
      const done = term, outer = around.pop();
      if (outer && outer.name) { outer.parts.push(done); term = outer; }
    } else if (term.name) term.parts.push({ name: token, parts: [] });
    else term.name = token;
  }
  return term;
}

/** @param {string[]} words @returns {[string, Term][]} */
const valuesOf = (words) => words.map((word) => {
  const at = word.indexOf("=");
  return [word.slice(0, at), termOf(word.slice(at + 1))];
});

/** How many constructors with arguments stand around the innermost one, along first arguments.
 * @param {Term} term */
function chain(term) {
  let count = 0;
  for (; term.parts.length; term = term.parts[0]) count++;
  return count;
}

class Prose {
  /** @param {Templates} templates @param {string} gap what stands between a rule and its values, where no template is */
  constructor(templates, gap = "  ") {
    // Maps, since a name of a world may be one that each object of JavaScript has.
    this.rules = new Map(Object.entries(templates.rules));
    this.words = new Map(Object.entries(templates.words));
    this.stages = new Map(Object.entries(templates.stages));
    this.ends = new Map(Object.entries(templates.ends));
    this.start = templates.start;
    this.gap = gap;
  }

  /** @param {Term} term @returns {string} */
  phrase(term) {
    const template = this.words.get(term.name);
    if (template !== undefined) return this.filled(template, new Map(term.parts.map((part, n) => [String(n + 1), part])));
    return [readable(term.name), ...term.parts.map((part) => this.argument(part))].join(" ");
  }

  /** @param {Term} term */
  argument(term) {
    const text = this.phrase(term);
    return term.parts.length && !this.words.has(term.name) ? `(${text})` : text;
  }

  /** A template with the values at its places.
   * @param {string} template @param {Map<string, Term>} values @returns {string} */
  filled(template, values) {
    return template.replace(/\{(#?)([A-Z_1-9][A-Za-z0-9_/']*)\}/g, (place, mark, name) => {
      const term = values.get(name);
      if (!term) return place;
      return mark ? String(chain(term)) : this.phrase(term);
    });
  }

  /** @param {string} offer @param {string | null | undefined} template */
  ofOffer(offer, template) {
    const [rule, ...words] = wordsOf(offer), values = valuesOf(words);
    if (typeof template === "string") return sentence(this.filled(template, new Map(values)));
    return readable(rule) + (values.length ? this.gap : "") + values.map(([, term]) => this.phrase(term)).join(", ");
  }

  /** What the step says that an offer stands for.
   * @param {string} offer */
  told(offer) { return this.ofOffer(offer, (this.rules.get(offer.split(" ")[0]) || [null])[0]); }

  /** @param {string} offer */
  offered(offer) { return this.ofOffer(offer, (this.rules.get(offer.split(" ")[0]) || ["", null])[1] || null); }

  /** How offers read, with the difference in brackets between those that would read the same.
   * @param {string[]} offers @returns {string[]} */
  offers(offers) {
    const texts = offers.map((offer) => this.offered(offer));
    /** @type {Map<string, number[]>} */
    const same = new Map();
    texts.forEach((text, n) => { const others = same.get(text); if (others) others.push(n); else same.set(text, [n]); });
    for (const group of same.values()) if (group.length > 1) this.tellApart(texts, offers, group);
    return texts;
  }

  /** @param {string[]} texts @param {string[]} offers @param {number[]} group */
  tellApart(texts, offers, group) {
    /** @type {Map<string, number>} */
    const having = new Map();
    for (const n of group) for (const word of new Set(wordsOf(offers[n]))) having.set(word, (having.get(word) || 0) + 1);
    for (const n of group) {
      const [rule, ...values] = wordsOf(offers[n]).map((word) => having.get(word) === group.length ? "" : word);
      const own = valuesOf(values.filter(Boolean)).map(([, term]) => this.phrase(term));
      texts[n] += ` [${(rule ? [readable(rule)] : []).concat(own).join(", ")}]`;
    }
  }

  /** @param {string} text @param {number} copies */
  atom(text, copies) {
    const phrase = this.phrase(termOf(text)), said = this.words.has(text.split(" ")[0]) ? sentence(phrase) : phrase;
    return copies === 1 ? said : `${said} (x${copies})`;
  }
}

/** Reads a transcript: what was done, what is offered at its end, and the last listing.
 * @param {string} text @returns {Run} */
function readRun(text) {
  /** @type {Run} */
  const run = { refusal: "", stage: "", told: [], offers: [], asks: false, player: 0, choices: 0, refused: -1, state: [], end: "" };
  const lines = text.split("\n");
  let isListing = false;
  if (!lines[0].startsWith("ceptre ")) { run.refusal = lines[0]; return run; }
  for (const line of lines) {
    const at = line.indexOf(" "), word = line.slice(0, at), rest = line.slice(at + 1);
    if (word === "?") readQuestion(run, rest, isListing);
    else if (word === "have") run.state.push({ copies: parseInt(rest, 10), atom: rest.slice(rest.indexOf(" ") + 1) });
    else if (word === "step") run.told.push({ kind: "step", text: rest, choices: run.choices });
    else if (word === "stage") {
      if (run.stage) run.told.push({ kind: "stage", text: rest, choices: run.choices });
      run.stage = rest;
    } else if (word === "end") run.end = rest;
    if (word === "state" || word === "end") run.state = [];
    isListing = word === "?" && /^[0-9]/.test(rest);
  }
  run.asks = run.end === "input";
  if (run.asks) run.choices--;
  else run.offers = [];
  return run;
}

/** @param {Run} run @param {string} rest @param {boolean} isListing whether the line before is an offer too */
function readQuestion(run, rest, isListing) {
  const [word] = rest.split(" ", 1), after = rest.slice(word.length + 1);
  if (word === "choose") {
    run.choices++;
    run.player = Number(after || 1);
  } else if (word === "blocked") run.told.push({ kind: "blocked", text: after, choices: run.choices });
  else if (word === "no") run.refused = run.refused < 0 ? run.choices - 1 : run.refused;
  else {
    if (!isListing) run.offers = [];
    run.offers.push(after);
  }
}
