// The verdicts at the top. Anomalies are a list by name, each of which can be chosen; the least script with one is behind a button.
import { $, h, put, plural } from "./dom.js";
import { call, forget } from "./api.js";
import { choose, state } from "./state.js";
import { at, copied, failed, sentence } from "./results.js";

const LETTERS = "abcdefghijklmnopqrstuvwxyz";
const MARKS = { good: "✓", bad: "✕", open: "?" };
export const letter = (number) => LETTERS[number] || String(number + 1);

function verdict(it, below) {
  return h("div", { class: "verdict " + it.mood }, h("span", { class: "sign", "aria-hidden": "true" }, MARKS[it.mood]),
    h("div", {}, h("p", {}, h("b", {}, it.title + ". "), it.sentences.slice(0, 1).map(sentence)),
      it.edges.length > 0 && steps(it.edges),
      it.order.length > 0 && it.order.length <= 30 && it.title.startsWith("As if") && h("p", { class: "soft" }, it.order.flatMap((number, place) => [place > 0 && " → ", at(number)])),
      it.edges.length === 0 && it.sentences.length > 1 && h("p", { class: "soft" }, it.sentences.slice(1).map((one) => [sentence(one), " "])),
      below, it.question === "CHECK" && h("details", {}, h("summary", {}, "what CHECK does not vouch for"), h("ul", {}, it.open.map((text) => h("li", {}, text))))));
}

// The steps of a cycle, with the letters of their arrows.
const steps = (edges) => h("ol", {}, edges.map((edge, number) => h("li", {}, h("span", { class: "letter" }, letter(number)), at(edge.a), " before ", at(edge.b), ": ", sentence(edge.says))));

// Of each name so many are shown at first; more are behind a button.
const EACH = 3;
const key = (it) => it.transactions.join(".");

// All anomalies, each a button. The chosen one has its steps, and its arrows in the timeline.
export class Anomalies {
  constructor(all, counted, more) {
    this.all = all;
    this.counted = counted;
    this.more = more;
    this.whole = false;
    this.names = [...new Set(all.map((it) => it.title))];
    this.place = h("div", { class: "verdict bad anomalies" });
  }

  get chosen() { return this.all.find((it) => key(it) === state.a) || this.all[0] || null; }
  edges() { return this.chosen ? this.chosen.edges : []; }
  of(number) { return this.all.filter((it) => it.transactions.includes(number)); }

  // Also moves to its first transaction.
  choose(it) { choose({ a: key(it), t: it.transactions[0], k: null, row: null }); }

  draw() {
    // The least script of the one that was chosen before is not waited for. Who chose by keys stays on the button.
    forget("reproduce");
    const held = this.place.contains(document.activeElement) && document.activeElement.closest("[data-a]")?.dataset.a;
    const chosen = this.chosen;
    const listed = this.names.flatMap((name) => this.all.filter((it) => it.title === name).filter((it, place) => this.whole || place < EACH || it === chosen));
    const left = this.all.length - listed.length;
    put(this.place, h("span", { class: "sign", "aria-hidden": "true" }, MARKS.bad), h("div", {},
      this.counted && h("p", {}, h("b", {}, this.counted.title + ". "), this.counted.sentences.map(sentence)),
      h("ul", {}, listed.map((it) => h("li", { class: it === chosen ? "chosen" : null, "data-a": key(it) },
        h("p", {}, h("button", { type: "button", class: "name", "aria-pressed": String(it === chosen), "aria-label": it.title + " of " + it.transactions.join(", "), onclick: () => this.choose(it) }, it.title + ":"), " ", sentence(it.sentences[0])),
        it === chosen && [steps(it.edges), smaller("ANOMALIES", it.title.toLowerCase())]))),
      left > 0 && h("p", {}, h("button", { type: "button", class: "all", onclick: () => { this.whole = true; this.draw(); } }, plural(left, "more anomaly").replace("anomalys", "anomalies"))),
      this.more && h("p", { class: "soft" }, this.more.title + ". ", this.more.sentences.map(sentence))));
    if (held) this.place.querySelector("[data-a='" + held + "'] .name")?.focus({ preventScroll: true });
  }
}

// The least script in which a cycle stays.
function smaller(question, name = "") {
  const place = h("div", {});
  const button = h("button", { type: "button", class: "reproduce", onclick: async () => {
    button.disabled = true;
    put(place, h("p", { class: "wait" }));
    const got = await call("reproduce", { text: question, name }, "reproduce", place);
    button.disabled = false;
    if (!got) return put(place);
    if (got.error) return failed(place, got);
    const script = got.lines.join("\n") + "\n";
    put(place, h("p", { class: "soft" }, plural(got.before, "line") + " became " + got.lines.length + ", in " + plural(got.runs, "run") + ": " + got.head + ". "), h("pre", { class: "script" }, script),
      h("p", {}, copied("Copy the script", script), " ", copied("Copy as isolationtester's spec", got.spec)));
  } }, "Find the least script with it");
  return h("div", { class: "smaller" }, button, place);
}

export function refused(desk) {
  return h("div", { class: "verdict bad" }, h("span", { class: "sign" }, "!"), h("div", {}, h("p", {}, h("b", {}, plural(desk.refusals, "line") + " of the script " + (desk.refusals === 1 ? "was" : "were") + " refused"), " and " + (desk.refusals === 1 ? "is" : "are") + " missing from the history."),
    h("details", {}, h("summary", {}, "which, and why"), desk.refused.map((it) => h("pre", {}, it.text)))));
}

// Asks, shows, and gives the anomalies. Where the program has the shortest cycle alone, this is the only one.
export async function verdicts(desk) {
  const place = $("verdicts");
  place.className = "wait";
  if (desk.refusals) put(place, refused(desk));
  const answer = await call("verdicts", {}, "verdicts", place);
  place.className = "";
  if (!answer || answer.error) { failed(place, answer || { error: "" }); return new Anomalies([], null, null); }
  const all = answer.verdicts.filter((it) => it.transactions.length > 0), summed = answer.verdicts.filter((it) => it.question === "ANOMALIES" && !it.transactions.length && it.mood === "bad");
  const others = answer.verdicts.filter((it) => !all.includes(it) && !summed.includes(it)).sort((a, b) => (b.mood === "bad") - (a.mood === "bad"));
  const found = new Anomalies(all, summed.find((it) => !/ more /.test(it.title)), summed.find((it) => / more /.test(it.title)));
  if (all.length) found.draw();
  else if (others.some((it) => it.edges.length)) found.edges = () => others.find((it) => it.edges.length).edges;
  put(place, all.length > 0 && found.place, others.map((it) => verdict(it, it.edges.length > 0 && smaller(it.question))), desk.refusals > 0 && refused(desk));
  return found;
}
