// Draws what /status.json says, every two seconds. Whatever it says is put in as text, never as markup.
"use strict";
const EVERY = 2000, PATIENCE = 5000;
const by = id => document.getElementById(id);
let heard = 0;

function make(tag, words, ...inside) {
  const e = document.createElement(tag);
  for (const [name, value] of Object.entries(words || {})) if (value !== null && value !== undefined) e.setAttribute(name, value);
  e.append(...inside.filter(i => i !== null && i !== undefined).map(i => (i instanceof Node ? i : String(i))));
  return e;
}
const two = n => String(n).padStart(2, "0");
const clock = ms => new Date(ms).toISOString().slice(11, 19);
function lasted(ms) {
  const s = Math.max(0, Math.round(ms / 1000));
  if (s < 60) return s + " s";
  if (s < 3600) return Math.floor(s / 60) + " min " + two(s % 60) + " s";
  return Math.floor(s / 3600) + " h " + two(Math.floor(s / 60) % 60) + " min";
}
// the same where there is little room
function brief(ms) {
  const s = Math.max(0, Math.round(ms / 1000));
  return s < 60 ? s + " s" : s < 3600 ? Math.floor(s / 60) + " min" : s < 86400 ? Math.floor(s / 3600) + " h" : Math.floor(s / 86400) + " d";
}
const many = n => n.toLocaleString("en-GB");

// ---- the top

function card(id, level, title, word, ...lines) {
  const sign = { good: "●", warn: "◆", bad: "▲" }[level];
  return make("article", { class: "card " + level, id }, make("h3", null, title), make("b", null, sign + " " + word), ...lines.filter(l => l).map(l => make("p", null, l)));
}
function drawTop(s) {
  const has = code => s.attention.some(a => a.code === code), b = s.broker, j = s.journal, o = s.outbox;
  const broker = has("broker-away") || has("broker-blocked") ? "bad" : has("broker-silent") ? "warn" : "good";
  const outbox = has("outbox-full") || has("letters-refused") ? "bad" : has("outbox-nearly-full") ? "warn" : "good";
  const journal = has("stands-still") || has("journal-held-up") || has("starting") ? "bad" : "good";
  by("cards").replaceChildren(
    card("broker", broker, "Broker", b.state, b.name + ":" + b.port + ", for " + lasted(s.time - b.since), b.why, "connections " + b.connections + ", lost " + b.lost),
    card("journal", journal, "Journal", journal === "good" ? "keeps" : has("starting") ? "is not open" : "does not keep", j.kind + " " + j.id, many(j.commits) + " commits, " + (j.commit_us / 1000).toFixed(1) + " ms each"),
    card("outbox", outbox, "Outbox", has("outbox-full") ? "full" : many(o.letters) + (o.letters === 1 ? " letter" : " letters"), many(o.letters) + " of " + many(o.most), o.letters > 0 ? "the oldest waits for " + lasted(o.oldest_ms) : "nothing waits"),
    card("totals", "good", "Since " + clock(s.began), many(s.totals.jobs_taken) + " jobs", many(s.totals.jobs_refused) + " refused, " + many(s.totals.dead_letters) + " laid aside", many(s.totals.messages_delivered) + " messages came down, " + many(s.totals.dialogues_broken) + " breaks"));
  by("host").textContent = s.host + (s.role === "standby" ? " (standby)" : "");
  by("version").textContent = "version " + s.version;
  const bad = s.attention.filter(a => a.level === "bad").length;
  const words = !s.healthy ? "▲ does not work" : bad > 0 ? "▲ works, needs attention" : "● works";
  by("verdict").textContent = words;
  by("verdict").className = !s.healthy || bad > 0 ? "bad" : "good";
  document.title = (bad > 0 ? "▲ " + bad + " " : "") + "peat-bridge " + s.host;
}
function drawAttention(s) {
  const rows = s.attention.map(a => make("li", { class: a.level, "data-code": a.code, "data-dialogue": a.dialogue },
    a.level === "bad" ? "▲ " : "◆ ", a.dialogue === undefined ? null : make("a", { href: "#d" + two(a.dialogue) }, "Dialogue " + two(a.dialogue)), a.dialogue === undefined ? null : ": ", a.what));
  by("attention").replaceChildren(...(rows.length > 0 ? rows : [make("li", { class: "quiet" }, "● Nothing.")]));
}

// ---- the tiles

const CONSUMER = { none: "no", asked: "asked for", there: "there", leaving: "leaving", lost: "lost" };
const STATE = { IDLE: "idle", "START-REQ": "starting", "START-IND": "asked", DIALOGUE: "open", END: "ending", FORWARD: "forwards" };
function line(label, value, isBad) {
  return make("p", { class: isBad ? "bad" : null }, make("span", null, label + " "), value);
}
function tile(s, d) {
  const id = "d" + two(d.number), title = () => make("h3", null, two(d.number), make("span", null, d.aircraft));
  if (!d.ours) return make("li", { id, class: "other", "data-state": "other" }, title(), make("b", null, "– another host"));
  const bad = s.attention.some(a => a.dialogue === d.number && a.level === "bad");
  const kind = bad ? "bad" : d.open ? "open" : d.state === "IDLE" ? "idle" : "waits";
  const sign = { bad: "▲", open: "●", waits: "◔", idle: "○" }[kind];
  return make("li", { id, class: kind, "data-state": d.state, "data-consumer": d.consumer }, title(),
    make("b", { title: d.state }, sign + " " + (d.broken ? "broken" : STATE[d.state])),
    line("since", clock(d.since) + ", " + brief(s.time - d.since)),
    d.t_start_ms > 0 ? line("t-start left", brief(d.t_start_ms)) : null,
    line("jobs", many(d.jobs_open) + " open, " + many(d.jobs_waiting) + " waiting"),
    d.numbers_open !== undefined ? line("numbers", d.numbers_open + " of 64 open" + (d.number_awaited ? ", a job waits" : ""), d.number_awaited) : null,
    d.refused ? line("refused", d.refused.job + " " + d.refused.name + " " + clock(d.refused.at)) : null,
    d.unsent > 0 ? line("not yet sent", many(d.unsent)) : null,
    line("consumer", CONSUMER[d.consumer], d.consumer === "lost"),
    d.held_up ? line("journal", "held up", true) : null,
    line("run", many(d.run) + ", lease " + d.lease + ", " + d.host),
    d.last && !d.open ? line("last run", d.last.fate + " (" + d.last.why + ") " + clock(d.last.at), d.broken) : null);
}
function drawTiles(s) {
  by("count").textContent = s.totals.dialogues_open + " open of " + s.dialogues.length + ", " + s.totals.dialogues_owned + " here";
  by("tiles").replaceChildren(...s.dialogues.map(d => tile(s, d)));
}

// ---- the hour: three rows of bars, each with its own scale

const SVG = "http://www.w3.org/2000/svg";
function shape(tag, words, text) {
  const e = document.createElementNS(SVG, tag);
  for (const [name, value] of Object.entries(words)) e.setAttribute(name, value);
  if (text !== undefined) e.textContent = text;
  return e;
}
function drawHour(s) {
  const width = 640, row = 74, left = 96, names = { jobs: "● jobs taken", refused: "◆ refused", broken: "▲ broken" };
  const svg = shape("svg", { viewBox: "0 0 " + width + " " + (3 * row + 26), role: "img", "aria-label": "Jobs taken, jobs refused and dialogues broken in each of the last 60 minutes" });
  Object.keys(names).forEach((name, r) => {
    const counts = s.hour[name], most = Math.max(1, ...counts), sum = counts.reduce((a, b) => a + b, 0), base = (r + 1) * row;
    svg.append(shape("text", { x: 8, y: base - row / 2 }, names[name]), shape("text", { x: 8, y: base - row / 2 + 15 }, many(sum) + " in all"), shape("text", { x: left - 6, y: base - row + 20, "text-anchor": "end" }, many(most)));
    svg.append(shape("line", { class: "base", x1: left, x2: width - 8, y1: base, y2: base }));
    counts.forEach((n, i) => {
      if (n === 0) return;
      const high = Math.max(2, (row - 16) * n / most), step = (width - 8 - left) / counts.length;
      const bar = shape("rect", { class: name, x: left + i * step + 0.75, y: base - high, width: step - 1.5, height: high });
      bar.append(shape("title", {}, clock(s.hour.end - (counts.length - 1 - i) * 60000).slice(0, 5) + ": " + n));
      svg.append(bar);
    });
  });
  [0, 15, 30, 45, 60].forEach(m => svg.append(shape("text", { x: left + (width - 8 - left) * (60 - m) / 60, y: 3 * row + 18, "text-anchor": m === 0 ? "end" : m === 60 ? "start" : "middle" }, m === 0 ? "now" : "-" + m + " min")));
  by("hour").replaceChildren(svg);
}

// ---- events

const PLAIN = new Set(["time", "level", "event", "dialogue"]);
function drawEvents(s) {
  by("events").replaceChildren(...s.events.map(e => make("tr", { class: e.level, "data-event": e.event },
    make("td", null, e.time.slice(11, 23)), make("td", null, e.dialogue === undefined ? "" : two(e.dialogue)),
    make("td", null, (e.level === "warn" || e.level === "fail" ? "▲ " : "") + e.event + Object.entries(e).filter(([name]) => !PLAIN.has(name)).map(([name, value]) => "; " + name + " " + value).join("")))));
}

// ---- asking

function drawSilence() {
  const late = heard === 0 ? performance.now() > PATIENCE : performance.now() - heard > PATIENCE;
  by("silence").hidden = !late;
  by("silence").textContent = heard === 0 ? "▲ The bridge does not answer." : "▲ The bridge does not answer. What is below is " + lasted(performance.now() - heard) + " old.";
  document.body.classList.toggle("stale", late);
  if (late) by("verdict").textContent = "";
}
async function ask() {
  const stop = new AbortController(), patience = setTimeout(() => stop.abort(), PATIENCE);
  try {
    const answer = await fetch("/status.json", { signal: stop.signal, cache: "no-store", credentials: "same-origin" });
    const s = await answer.json();
    heard = performance.now();
    drawTop(s);
    drawAttention(s);
    drawTiles(s);
    drawHour(s);
    drawEvents(s);
    by("clock").textContent = "as of " + clock(s.time) + " UTC";
    document.body.dataset.drawn = "yes";
  } catch (e) {
    // it is silent: drawSilence says so
  }
  clearTimeout(patience);
  setTimeout(ask, EVERY);
}
setInterval(drawSilence, 1000);
ask();
