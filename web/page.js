// A world as a page: each choice plays all choices again in a worker, and what the program wrote is shown.

/** @typedef {{ name: string, file: string, sum: string, players: number, seed: string, options: string[],
 *   prose: Templates, walk: Walk | null }} Settings */
/** @typedef {{ status: number, said: Uint8Array, broke: string }} Answer */
/** @typedef {{ words: string[], files: Record<string, Uint8Array>, typed: Uint8Array }} Asked */

/** @param {string} id @returns {any} */
const $ = (id) => document.getElementById(id);
/** @param {string} id */
const contentOf = (id) => $(id).textContent.trim();
/** @param {string} base64 */
const bytesOf = (base64) => Uint8Array.from(atob(base64), (letter) => letter.charCodeAt(0));
/** @param {Uint8Array} bytes */
const textOf = (bytes) => new TextDecoder().decode(bytes);
/** @param {number} count @param {string} what */
const counted = (count, what) => `${count.toLocaleString("en")} ${what}${count === 1 ? "" : "s"}`;

/** @type {Settings} */
const settings = JSON.parse(contentOf("settings"));
const world = bytesOf(contentOf("world"));
const prose = new Prose(settings.prose, ": ");
const STOP_AFTER = 2000, SHOWN_OFFERS = 50, SHOWN_LINES = 500, SHOWN_ATOMS = 1000, WAIT_FOR_DIGITS = 1500;
const HEAD = /^saved game of (.*), world ([0-9a-f]{16}), seed ([0-9]+)$/;
/** @type {Record<string, string>} */
const ENDS = { quiet: "The end: nothing more can happen.", turns: "The end: all turns are over." };

/** @param {string} name @param {string} text @param {string} kind */
function element(name, text, kind = "") {
  const made = document.createElement(name);
  made.textContent = text;
  if (kind) made.className = kind;
  return made;
}

// The program.

/** What runs in the worker. */
function serve() {
  /** @type {WebAssembly.Module} */
  let compiled;
  onmessage = ({ data }) => {
    if (data.compiled) { compiled = data.compiled; return; }
    try {
      const { status, said } = /** @type {any} */ (globalThis).ceptre.run(compiled, data.request);
      postMessage({ id: data.id, status, said, broke: "" });
    } catch (error) {
      postMessage({ id: data.id, status: -1, said: new Uint8Array(), broke: String(error) });
    }
  };
}

const program = {
  /** @type {Worker | null} */ worker: null,
  /** @type {WebAssembly.Module | null} */ compiled: null,
  /** @type {Promise<void>} */ ready: Promise.resolve(),
  /** @type {Map<number, (answer: Answer | null) => void>} */ waiting: new Map(),
  calls: 0,

  async begin() {
    const packed = new Blob([bytesOf(contentOf("wasm"))]).stream();
    const unpacked = packed.pipeThrough(new /** @type {any} */ (globalThis).DecompressionStream("gzip"));
    this.compiled = await WebAssembly.compile(await new Response(unpacked).arrayBuffer());
    this.start();
  },
  start() {
    const source = new Blob([`${contentOf("loader")}\n(${serve})();`], { type: "text/javascript" });
    const at = URL.createObjectURL(source), worker = new Worker(at);
    worker.onmessage = ({ data }) => this.answer(data.id, data);
    worker.onerror = () => { if (this.waiting.size) this.stop(); };
    worker.postMessage({ compiled: this.compiled });
    this.worker = worker;
  },
  /** @param {number} id @param {Answer | null} answer */
  answer(id, answer) {
    const done = this.waiting.get(id);
    this.waiting.delete(id);
    if (done) done(answer);
  },
  /** Ends what runs, whose answer is then null. */
  stop() {
    if (this.worker) this.worker.terminate();
    this.start();
    for (const id of [...this.waiting.keys()]) this.answer(id, null);
  },
  /** @param {Asked} request @returns {Promise<Answer | null>} */
  async run(request) {
    await this.ready;
    return new Promise((done) => {
      this.waiting.set(++this.calls, done);
      if (this.worker) this.worker.postMessage({ id: this.calls, request });
    });
  },
};

/** Why a run gave nothing, or an empty text.
 * @param {Answer | null} answer */
function failure(answer) {
  if (!answer) return "That took too long, and is undone.";
  if (/RangeError|stack/i.test(answer.broke)) return "That needs more of the browser's stack than there is, and is undone.";
  if (answer.broke) return `The program broke off (${answer.broke}), and that choice is undone.`;
  if (answer.status === 9) return "Out of memory: that choice is undone.";
  return "";
}

// The game.

const game = {
  /** @type {number[]} */ typed: [],
  seed: settings.seed,
  /** @type {Run | null} */ run: null,
  /** @type {Uint8Array} */ transcript: new Uint8Array(),
  present: 0,
  busy: false,
};

/** @param {number[]} typed @param {string} seed @returns {Asked} */
function requestOf(typed, seed) {
  const words = [settings.players ? "rounds" : "play", settings.file, ...settings.options, `seed=${seed}`];
  const input = new TextEncoder().encode(typed.map((choice) => `${choice}\n`).join(""));
  return { words, files: { [settings.file]: world }, typed: input };
}

/** Runs the program while the page waits for it, and offers to stop it after a while.
 * @param {Asked} request */
async function waited(request) {
  game.busy = true;
  $("game").setAttribute("aria-busy", "true");
  const slow = setTimeout(() => { $("stop").hidden = false; say("This takes long. You can stop it."); }, STOP_AFTER);
  const answer = await program.run(request);
  clearTimeout(slow);
  $("stop").hidden = true;
  $("game").removeAttribute("aria-busy");
  game.busy = false;
  return answer;
}

/** Plays all of these choices, and shows the game; or says why not, and the game stays as it was.
 * @param {number[]} typed @param {string} seed @param {string} said @returns {Promise<boolean>} */
async function play(typed, seed = game.seed, said = "") {
  if (game.busy) return false;
  const began = performance.now(), answer = await waited(requestOf(typed, seed)), why = failure(answer);
  if (!answer || why) { say(why); return false; }
  const run = readRun(textOf(answer.said));
  const done = run.refused < 0 ? run.choices : run.refused;
  if (done < typed.length) return play(typed.slice(0, done), seed, `Only ${done} of ${counted(typed.length, "choice")} could be made.`);
  Object.assign(game, { typed, seed, run, transcript: answer.said });
  say(said);
  show(run);
  document.body.dataset.spent = String(Math.round((performance.now() - began) * 10) / 10);
  return true;
}

/** @param {number} number */
function choose(number) {
  const run = game.run;
  if (!run || !run.asks || number < 1 || number > run.offers.length || game.busy || !$("curtain").hidden) return;
  game.present = run.player;
  keys.focus = $("offers").contains(document.activeElement) || document.activeElement === $("now");
  play([...game.typed, number]);
}

function undo() {
  if (game.typed.length) play(game.typed.slice(0, -1), game.seed, "The last choice is taken back.");
}

/** @param {string} seed */
function begin(seed) {
  game.present = 0;
  return play([], seed, "A new game begins.");
}

// What is shown.

/** @param {string} text */
function say(text) { $("said").textContent = text; }

/** @param {Run} run */
function show(run) {
  if (run.refusal) { say(`The program does not play this world: ${run.refusal}`); return; }
  showStory(run);
  showState(run.state, prose);
  const isHidden = run.asks && settings.players > 0 && run.player !== game.present;
  $("curtain").hidden = !isHidden;
  $("table").hidden = isHidden;
  $("come").textContent = `It is the turn of player ${run.player}`;
  $("present").textContent = `I am player ${run.player}`;
  offers.set(run);
  $("undo").disabled = $("again").disabled = !game.typed.length;
  $("count").textContent = `${counted(game.typed.length, "choice")}, seed ${game.seed}`;
  if ($("raw").parentElement.open) showRaw();
  if (keys.focus) (isHidden ? $("present") : $("now")).focus();
  keys.focus = false;
}

/** What is told of a line of the run, which may be nothing.
 * @param {Told} told */
function textOfTold({ kind, text }) {
  if (kind === "step") return sentence(prose.told(text));
  if (kind === "stage") return prose.stages.get(text) || "";
  const at = text.indexOf(" ");
  return `Player ${text.slice(0, at)} cannot do that: ${prose.offered(text.slice(at + 1))}`;
}

// What the story shows, line by line, so that only what is new is added and read out.
/** @type {string[]} */
let told = [];

/** @param {Run} run */
function showStory(run) {
  const story = $("story"), now = run.told.map(({ kind, text }) => `${kind} ${text}`);
  if (!run.asks) now.push(`end ${run.end}`);
  let same = 0;
  while (same < now.length && told[same] === now[same]) same++;
  for (let more = told.length - same; more > 0 && story.lastElementChild; more--) story.lastElementChild.remove();
  if (!story.childElementCount) {
    same = Math.max(0, now.length - SHOWN_LINES);
    if (!same) story.append(element("p", prose.start || "It begins.", "begin"));
  }
  for (let n = Math.max(same, now.length - SHOWN_LINES); n < now.length; n++) {
    const of = run.told[n], text = of ? textOfTold(of) : prose.ends.get(run.end) || ENDS[run.end] || `The end, by a limit: ${run.end}.`;
    const line = element("p", text, of ? of.kind : "end");
    line.dataset.raw = now[n];
    line.hidden = !text;
    story.append(line);
  }
  while (story.childElementCount > SHOWN_LINES) story.firstElementChild.remove();
  told = now;
  story.scrollTop = story.scrollHeight;
}

/** @param {{ copies: number, atom: string }[]} state @param {Prose} by */
function showState(state, by) {
  $("state").replaceChildren(...state.slice(0, SHOWN_ATOMS).map(({ copies, atom }) => {
    const text = by.atom(atom, copies), line = element("li", sentence(text));
    line.dataset.raw = atom;
    line.hidden = !text;
    return line;
  }));
  const more = state.length - SHOWN_ATOMS;
  $("nothing").textContent = more > 0 ? `And ${more} more, which the transcript has.` : "Nothing.";
  $("nothing").hidden = state.length > 0 && more <= 0;
}

function showRaw() { $("raw").textContent = textOf(game.transcript); }

/** The words of a text by which offers are found.
 * @param {string} text */
const searched = (text) => text.toLowerCase().split(/[^0-9a-z\u0080-\uffff']+/).filter(Boolean);

const offers = {
  /** @type {string[]} */ raw: [],
  /** @type {string[]} */ texts: [],
  /** @type {number[]} */ found: [],
  first: 0,

  /** @param {Run} run */
  set(run) {
    this.raw = run.offers;
    this.texts = prose.offers(run.offers).map(sentence);
    const who = settings.players ? `Player ${run.player}: choose` : "Choose";
    $("now").textContent = run.asks ? `${who} (${counted(this.raw.length, "way")})` : "The game has ended";
    $("find").hidden = this.raw.length <= SHOWN_OFFERS;
    $("words").value = "";
    this.filter("");
  },
  /** Shows the offers that have words which begin so.
   * @param {string} text */
  filter(text) {
    const words = searched(text);
    this.found = [];
    this.texts.forEach((own, n) => {
      const having = words.length ? searched(`${own} ${this.raw[n]}`) : [];
      if (words.every((word) => having.some((other) => other.startsWith(word)))) this.found.push(n);
    });
    this.page(0);
  },
  /** @param {number} first */
  page(first) {
    this.first = Math.max(0, first < this.found.length ? first : this.first);
    const last = Math.min(this.found.length, this.first + SHOWN_OFFERS);
    $("offers").replaceChildren(...this.found.slice(this.first, last).map((n) => this.button(n)));
    $("earlier").disabled = this.first === 0;
    $("more").disabled = last === this.found.length;
    $("part").textContent = `${last ? this.first + 1 : 0} to ${last} of ${counted(this.found.length, "offer")}`;
  },
  /** @param {number} n */
  button(n) {
    const line = document.createElement("li"), button = document.createElement("button");
    button.type = "button";
    button.append(element("span", String(n + 1), "number"), " ", element("span", this.texts[n]));
    button.title = this.raw[n];
    button.dataset.number = String(n + 1);
    button.addEventListener("click", () => choose(n + 1));
    line.append(button);
    return line;
  },
};

// Files, and what the browser keeps.

const isKeptAt = `ceptre ${settings.sum} ${settings.players}`;
const savedText = () => [`saved game of ${settings.file}, world ${settings.sum}, seed ${game.seed}`, ...game.typed, ""].join("\n");

/** @param {string} name @param {BlobPart} content */
function download(name, content) {
  const link = document.createElement("a");
  link.href = URL.createObjectURL(new Blob([content], { type: "text/plain" }));
  link.download = name;
  link.click();
  setTimeout(() => URL.revokeObjectURL(link.href), 10000);
}

/** @param {string} text */
function load(text) {
  const lines = text.split(/\r?\n/).filter(Boolean), head = HEAD.exec(lines[0] || "");
  if (!head || !lines.slice(1).every((line) => /^[1-9][0-9]{0,5}$/.test(line))) { say("That is no saved game."); return; }
  if (head[2] !== settings.sum) { say(`That was saved in another world, ${head[1]}, or in another text of it.`); return; }
  game.present = 0;
  play(lines.slice(1).map(Number), head[3], `Loaded: ${counted(lines.length - 1, "choice")}.`);
}

/** Says what the program's checker says of a transcript.
 * @param {string} name @param {Uint8Array} log */
async function check(name, log) {
  if (game.busy) return;
  const files = { [settings.file]: world, "game.log": log };
  const answer = await waited({ words: ["check", settings.file, "game.log"], files, typed: new Uint8Array() });
  const [verdict, count, ...cause] = answer ? textOf(answer.said).trim().split(" ") : [];
  if (!answer || failure(answer)) say(`The check of ${name} broke off.`);
  else if (verdict === "accepted") say(`${name} is accepted: it is legal, with ${counted(Number(count), "step")}.`);
  else say(`${name} is refused at line ${count}: ${cause.join(" ")}.`);
}

/** @param {File} file */
async function take(file) {
  const bytes = new Uint8Array(await file.arrayBuffer());
  if (HEAD.test(textOf(bytes.slice(0, 1000)).split(/\r?\n/)[0])) load(textOf(bytes));
  else await check(file.name, bytes);
}

/** Uses the browser's own store, which some browsers refuse to a file.
 * @param {() => void} work */
function stored(work) {
  try { work(); } catch { say("This browser keeps nothing for this page: save as a file instead."); }
}

// The keyboard.

const keys = {
  number: "",
  timer: 0,
  focus: false,

  /** @param {KeyboardEvent} event */
  pressed(event) {
    const at = document.activeElement, isTyping = at instanceof HTMLInputElement && at.type !== "checkbox";
    if (!$("keys").checked || event.ctrlKey || event.altKey || event.metaKey || isTyping || $("game").hidden || !game.run) return;
    const number = this.number, by = { ArrowDown: 1, ArrowUp: -1 }[event.key];
    if (/^[0-9]$/.test(event.key)) this.digit(number + event.key, game.run.offers.length);
    else if (event.key === "Enter" && number) this.done();
    else if (event.key === "u") undo();
    else if (by && (at === document.body || at === $("now") || $("offers").contains(at))) this.move(by);
    else return;
    event.preventDefault();
  },
  /** Takes digits, and waits for more where there may be more.
   * @param {string} digits @param {number} most */
  digit(digits, most) {
    clearTimeout(this.timer);
    this.number = Number(digits) >= 1 && Number(digits) <= most ? digits : "";
    if (!this.number) return;
    if (Number(digits) * 10 > most) { this.done(); return; }
    say(`${digits}: Enter, or more digits`);
    this.timer = window.setTimeout(() => this.done(), WAIT_FOR_DIGITS);
  },
  done() {
    const number = Number(this.number);
    clearTimeout(this.timer);
    this.number = "";
    keys.focus = true;
    choose(number);
  },
  /** @param {number} by */
  move(by) {
    const buttons = [...$("offers").querySelectorAll("button")], at = buttons.indexOf(document.activeElement);
    const to = at < 0 ? (by > 0 ? 0 : buttons.length - 1) : at + by;
    if (buttons[to]) buttons[to].focus();
  },
};

/** @param {string} id @param {() => void} work */
const onClick = (id, work) => $(id).addEventListener("click", work);

function listen() {
  onClick("undo", undo);
  onClick("again", () => begin(game.seed));
  onClick("stop", () => program.stop());
  onClick("earlier", () => offers.page(offers.first - SHOWN_OFFERS));
  onClick("more", () => offers.page(offers.first + SHOWN_OFFERS));
  onClick("present", () => {
    game.present = game.run ? game.run.player : 0;
    $("curtain").hidden = true;
    $("table").hidden = false;
    $("now").focus();
  });
  onClick("download", () => download(`${settings.name}.log`, game.transcript));
  onClick("check", () => check("This game", game.transcript));
  onClick("keep", () => stored(() => { localStorage.setItem(isKeptAt, savedText()); say(`Saved: ${counted(game.typed.length, "choice")}.`); }));
  onClick("fetch", () => stored(() => load(localStorage.getItem(isKeptAt) || "")));
  onClick("save", () => download(`${settings.name}.saved`, savedText()));
  $("file").addEventListener("change", () => { if ($("file").files[0]) take($("file").files[0]); $("file").value = ""; });
  $("words").addEventListener("input", () => { offers.first = 0; offers.filter($("words").value); });
  $("new").addEventListener("submit", (/** @type {Event} */ event) => {
    event.preventDefault();
    const seed = $("seed").value.trim();
    if (/^(0|[1-9][0-9]{0,19})$/.test(seed) && BigInt(seed) < 2n ** 64n) begin(seed);
    else say("A seed is a number from 0 to 18446744073709551615.");
  });
  $("raw").parentElement.addEventListener("toggle", showRaw);
  addEventListener("keydown", (event) => keys.pressed(event));
  addEventListener("dragover", (event) => event.preventDefault());
  addEventListener("drop", (event) => {
    event.preventDefault();
    if (event.dataTransfer && event.dataTransfer.files[0]) take(event.dataTransfer.files[0]);
  });
}

$("seed").value = settings.seed;
$("text").textContent = textOf(world);
listen();
program.ready = program.begin();
if (settings.walk) walk.begin(settings.walk);
program.ready.then(() => settings.walk ? true : play([])).then(
  () => { document.body.dataset.ready = "yes"; },
  (error) => say(`This browser does not run the page: ${error}`),
);
