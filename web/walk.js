// A transcript as a story to be walked through: its steps, the state after each, and on which earlier steps it rests.

/** @typedef {{ offer: string, stage: string, changes: [number, number][], after: number[], leaves: boolean }} WalkedStep */
/** @typedef {{ atoms: string[], start: [number, number][], steps: WalkedStep[], end: string, typed: number[],
 *   again: number, why: string }} Walk */

const ROW = 28, GUTTER = 48, ROWS = 30, LINES = 200;

/** @param {string} name @param {Record<string, string | number>} given */
function drawn(name, given) {
  const made = document.createElementNS("http://www.w3.org/2000/svg", name);
  for (const [key, value] of Object.entries(given)) made.setAttribute(key, String(value));
  return made;
}

const walk = {
  /** @type {Walk} */ log: { atoms: [], start: [], steps: [], end: "", typed: [], again: 0, why: "" },
  /** @type {number[]} */ copies: [],
  at: 0,

  /** @param {Walk} log */
  begin(log) {
    this.log = log;
    this.copies = log.atoms.map(() => 0);
    for (const [atom, copies] of log.start) this.copies[atom] = copies;
    $("game").hidden = true;
    $("walk").hidden = false;
    $("line").max = log.steps.length;
    $("cannot").textContent = log.why;
    /** @type {[string, () => number][]} */
    const ways = [["first", () => 0], ["back", () => this.at - 1], ["next", () => this.at + 1], ["last", () => log.steps.length]];
    for (const [id, to] of ways) onClick(id, () => this.go(to()));
    $("line").addEventListener("input", () => this.go(Number($("line").value)));
    onClick("goon", () => this.goOn());
    addEventListener("keydown", (event) => {
      const by = { ArrowLeft: -1, ArrowRight: 1 }[event.key];
      if (by && !$("walk").hidden && document.activeElement !== $("line")) this.go(this.at + by);
    });
    this.go(0);
  },

  /** Goes to the state after a step; 0 is the start.
   * @param {number} to */
  go(to) {
    const { steps } = this.log;
    to = Math.min(steps.length, Math.max(0, to));
    for (; this.at < to; this.at++) this.change(steps[this.at], 1);
    for (; this.at > to; this.at--) this.change(steps[this.at - 1], -1);
    $("line").value = to;
    $("line").setAttribute("aria-valuetext", `step ${to} of ${steps.length}`);
    $("step").textContent = to ? `Step ${to} of ${steps.length}: ${this.text(to)}` : `The start, before ${counted(steps.length, "step")}`;
    $("first").disabled = $("back").disabled = to === 0;
    $("next").disabled = $("last").disabled = to === steps.length;
    $("goon").disabled = to > this.log.again;
    this.showStory();
    this.showState();
    this.showCauses();
  },
  /** @param {WalkedStep} step @param {number} sign */
  change(step, sign) {
    for (const [atom, more] of step.changes) this.copies[atom] += sign * more;
  },
  /** What a step says, by its number; one that is silent is named.
   * @param {number} number */
  text(number) {
    if (!number) return prose.start || "The start.";
    const { offer } = this.log.steps[number - 1];
    return sentence(prose.told(offer) || `(${prose.offered(offer)})`);
  },
  showStory() {
    const lines = [], last = this.log.steps.length;
    for (let number = Math.max(0, this.at - LINES); number <= this.at; number++) {
      const line = element("li", ""), of = this.log.steps[number - 1];
      line.append(element("p", this.text(number)));
      if (of && of.stage && prose.stages.get(of.stage)) line.append(element("p", prose.stages.get(of.stage) || "", "stage"));
      if (number === last) line.append(element("p", prose.ends.get(this.log.end) || ENDS[this.log.end] || "", "end"));
      if (of) line.dataset.raw = of.offer;
      lines.push(line);
    }
    lines[lines.length - 1].setAttribute("aria-current", "step");
    $("walked").replaceChildren(...lines);
    $("walked").scrollTop = $("walked").scrollHeight;
  },
  showState() {
    const { atoms, steps } = this.log, changes = new Map(this.at ? steps[this.at - 1].changes : []), lines = [];
    for (const [atom, copies] of this.copies.entries()) {
      const text = prose.atom(atoms[atom], copies), more = changes.get(atom) || 0;
      if (copies > 0 && text) lines.push(element("li", sentence(text), more > 0 ? "new" : ""));
      if (more < 0 && text) lines.push(element("li", `${sentence(prose.atom(atoms[atom], -more))} (gone)`, "gone"));
    }
    $("state-then").replaceChildren(...lines);
  },

  /** The steps on which this one rests, and these on others: by their numbers. @returns {number[]} */
  causes() {
    const found = new Set([this.at]);
    for (let number = this.at; number > 0; number--) {
      if (found.has(number)) for (const earlier of this.log.steps[number - 1].after) found.add(earlier);
    }
    return [...found].filter(Boolean).sort((a, b) => a - b);
  },
  showCauses() {
    const step = this.log.steps[this.at - 1], after = step ? step.after : [], all = this.causes();
    const numbers = after.length > 1 ? `s ${after.slice(0, -1).join(", ")} and ${after[after.length - 1]}` : ` ${after[0]}`;
    const rests = after.length ? `rests on step${numbers}` : "rests on the start alone";
    const leaves = step && step.leaves ? "; it leaves a stage, so it comes after all steps before it" : "";
    $("rests").textContent = step ? `Step ${this.at} ${rests}${leaves}.` : "This is how it began.";
    if (all.length > ROWS) $("rests").textContent += ` Of ${all.length} steps the last ${ROWS} are drawn.`;
    this.draw(all.slice(-ROWS));
  },
  /** A row for each step, and an arc from each to those that rest on it.
   * @param {number[]} rows */
  draw(rows) {
    const made = [], row = new Map(rows.map((number, n) => [number, n * ROW + ROW / 2]));
    const letters = Math.floor(($("causes").clientWidth - GUTTER) / 8);
    for (const [number, y] of row) {
      const link = drawn("a", { tabindex: 0, role: "button" }), label = drawn("text", { x: GUTTER + 12, y: y + 5 });
      const whole = drawn("title", {}), text = `${number} ${this.text(number)}`;
      whole.textContent = text;
      label.textContent = text.length > letters ? `${text.slice(0, letters - 2)}..` : text;
      link.append(whole, drawn("circle", { cx: GUTTER, cy: y, r: number === this.at ? 6 : 4 }), label);
      link.addEventListener("click", () => this.go(number));
      link.addEventListener("keydown", (event) => { if (event instanceof KeyboardEvent && event.key === "Enter") this.go(number); });
      made.push(link);
      for (const earlier of this.log.steps[number - 1].after) {
        const from = row.get(earlier), wide = Math.min(GUTTER - 8, 10 + 5 * (number - earlier));
        if (from !== undefined) made.unshift(drawn("path", { d: `M${GUTTER} ${from} C${GUTTER - wide * 1.3} ${from} ${GUTTER - wide * 1.3} ${y} ${GUTTER - 6} ${y}` }));
      }
    }
    $("causes").setAttribute("height", String(rows.length * ROW));
    $("causes").replaceChildren(...made);
  },

  /** Plays what the transcript has up to here, and lets the reader go on. */
  async goOn() {
    const answer = game.busy ? null : await waited(requestOf(this.log.typed, game.seed));
    if (!answer || failure(answer)) { say(failure(answer)); return; }
    const done = readRun(textOf(answer.said)).told.filter(({ kind }) => kind === "step")[this.at - 1];
    $("walk").hidden = true;
    $("game").hidden = false;
    keys.focus = true;
    await play(this.log.typed.slice(0, done ? done.choices : 0), game.seed, `You go on after step ${this.at}.`);
  },
};
