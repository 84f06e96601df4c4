"use strict";
// Draws what /status.json tells, at the watcher's interval. All text is set as text: names can't become markup.

const SVG = "http://www.w3.org/2000/svg";
const WIDTH = 600;
const HEIGHT = 150;
const TIMELINE = 28;
const LAST_CHANGES = 5;
const MOST_SECONDS = 600;
const LEAST_SECONDS = 30;
const SECONDS_TO_ANSWER = 5;

const RATES = [["slowRate", "slow"], ["failureRate", "failure"]];

const cards = new Map();

/** Returns an element of a drawing with these attributes. */
function drawn(name, attributes) {
  const element = document.createElementNS(SVG, name);
  for (const [key, value] of Object.entries(attributes)) element.setAttribute(key, value);
  return element;
}

/** What is no state: the sidecar doesn't answer, or it has no such service. */
const NO_STATES = { "": "NO ANSWER", MISSING: "NO SUCH SERVICE" };

function classOf(state) {
  return state in NO_STATES ? "AWAY" : state;
}

function wordsOf(state) {
  return NO_STATES[state] || state.replace("_", " ");
}

/** Returns the moment at which the drawings begin: when the watcher did, within bounds. */
function beginOf(service, end) {
  const first = service.samples.length ? service.samples[0].moment : end;
  return Math.min(Math.max(first, end - MOST_SECONDS * 1000), end - LEAST_SECONDS * 1000);
}

function spanOf(milliseconds) {
  const seconds = Math.round(milliseconds / 1000);
  return seconds < 120 ? `last ${seconds} seconds` : `last ${Math.round(seconds / 60)} minutes`;
}

function timeOf(moment) {
  return new Date(moment).toLocaleTimeString([], { hour12: false });
}

function percent(rate) {
  return rate < 0 ? "too few calls" : `${rate} %`;
}

/** Draws the states of the last minutes as one coloured bar. */
function drawTimeline(svg, changes, begin, end) {
  const place = (moment) => Math.max(0, ((moment - begin) / (end - begin)) * WIDTH);
  const bars = changes.map((change, index) => {
    const until = index + 1 < changes.length ? changes[index + 1].moment : end;
    const x = place(change.moment);
    const width = Math.max(0, place(until) - x);
    const bar = drawn("rect", { x, y: 0, width, height: TIMELINE, class: classOf(change.state) });
    const title = drawn("title", {});
    title.textContent = `${wordsOf(change.state)} since ${timeOf(change.moment)}`;
    bar.append(title);
    return bar;
  });
  svg.replaceChildren(...bars);
  svg.setAttribute("aria-label", `states: ${changes.map((change) => wordsOf(change.state)).join(", ")}`);
}

/** Returns the lines of a rate. One that is -1 is no number, and interrupts its line. */
function linesOf(samples, key, place) {
  const lines = [[]];
  for (const sample of samples) {
    if (sample[key] < 0) lines.push([]);
    else lines[lines.length - 1].push(`${place(sample.moment)},${heightOf(sample[key])}`);
  }
  return lines.filter((points) => points.length);
}

function heightOf(rate) {
  return HEIGHT - 4 - (rate / 100) * (HEIGHT - 8);
}

/** Draws both rates over time, and their thresholds as broken lines. */
function drawRates(svg, service, begin, end) {
  const place = (moment) => ((moment - begin) / (end - begin)) * WIDTH;
  const samples = service.samples.filter((sample) => sample.moment >= begin);
  const parts = [];
  for (const [key, name] of RATES) {
    if (service.thresholds) {
      const y = heightOf(service.thresholds[name]);
      parts.push(drawn("line", { x1: 0, x2: WIDTH, y1: y, y2: y, class: name }));
    }
    for (const points of linesOf(samples, key, place)) {
      if (points.length === 1) points.push(points[0].replace(/^[^,]*/, (x) => Number(x) + 2));
      parts.push(drawn("polyline", { points: points.join(" "), class: name }));
    }
  }
  svg.replaceChildren(...parts);
  svg.setAttribute("aria-label", "failure rate and rate of slow calls in percent, with their thresholds");
}

/** Returns the figures of a service: a word, a number, and whether that is a bad one. */
function figuresOf(service) {
  const state = service.state;
  return [
    ["free places", state.free, state.free === 0],
    ["open tickets", state.open, false],
    ["in the window", state.total, false],
    ["not permitted", state.notPermitted, false],
    ["classifier", `v${state.version}`, false],
    ["its budget", state.budget, false],
    ["entries missed", service.missed, service.missed > 0],
    ["restarts", service.restarts, false],
  ];
}

function drawFigures(list, figures) {
  list.replaceChildren(...figures.map(([word, number, isBad]) => {
    const pair = document.createElement("div");
    const term = document.createElement("dt");
    const value = document.createElement("dd");
    term.textContent = word;
    value.textContent = number;
    value.classList.toggle("bad", isBad);
    pair.append(term, value);
    return pair;
  }));
}

function drawChanges(list, changes) {
  list.replaceChildren(...changes.slice(-LAST_CHANGES).reverse().map((change) => {
    const item = document.createElement("li");
    const at = document.createElement("span");
    item.className = classOf(change.state);
    at.textContent = timeOf(change.moment);
    item.append(at, `${wordsOf(change.state)}`);
    const why = document.createElement("span");
    why.textContent = change.why === "reading" ? "" : `by ${change.why}`;
    if (!(change.state in NO_STATES)) item.append(why);
    return item;
  }));
}

function cardOf(name) {
  if (!cards.has(name)) {
    const card = document.getElementById("service").content.cloneNode(true).firstElementChild;
    card.dataset.service = name;
    card.querySelector(".name").textContent = name;
    document.getElementById("services").append(card);
    cards.set(name, card);
  }
  return cards.get(name);
}

function drawService(service) {
  const card = cardOf(service.name);
  const find = (selector) => card.querySelector(selector);
  const state = service.missing ? "MISSING" : service.trouble ? "" : service.state.state;
  const end = Date.now();
  const begin = beginOf(service, end);
  card.className = classOf(state);
  find(".state").textContent = wordsOf(state);
  const last = service.changes[service.changes.length - 1];
  const period = service.state && !service.trouble ? `, period ${service.state.period}` : "";
  find(".about").textContent = service.trouble || (last ? `since ${timeOf(last.moment)}${period}` : "");
  drawTimeline(find(".timeline"), service.changes, begin, end);
  drawRates(find(".rates"), service, begin, end);
  find(".span").textContent = spanOf(end - begin);
  drawChanges(find(".changes"), service.changes);
  if (!service.state) return;
  for (const [key, name] of RATES) {
    find(`.key.${name} b`).textContent = percent(service.state[key]);
    find(`.key.${name} i`).textContent = service.thresholds ? `, opens at ${service.thresholds[name]} %` : "";
  }
  drawFigures(find("dl"), figuresOf(service));
}

function tellTrouble(text) {
  const line = document.getElementById("trouble");
  line.hidden = !text;
  line.textContent = text;
}

/** Asks for what is known, draws it, and does so again after the watcher's interval. */
async function look() {
  let seconds = 2;
  try {
    const answer = await fetch("status.json", { signal: AbortSignal.timeout(SECONDS_TO_ANSWER * 1000) });
    const status = await answer.json();
    seconds = status.seconds;
    status.services.forEach(drawService);
    const bad = status.services.filter((service) => service.trouble || service.state.state !== "CLOSED");
    document.title = bad.length ? `${bad.length} of ${status.services.length} not closed` : "All closed";
    tellTrouble("");
  } catch (error) {
    tellTrouble(`The watcher doesn't answer: ${error.message}`);
  }
  setTimeout(look, seconds * 1000);
}

look();
