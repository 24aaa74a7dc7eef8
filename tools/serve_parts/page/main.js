// The page: what is asked, what the service says, and where it is shown.

import { Bands } from "./bands.js";
import { moved, named, parts, span } from "./clocks.js";
import { byId, made } from "./elements.js";
import { clearFaults, fill, linked, put, remember, rest, showFault } from "./form.js";
import * as journeys from "./journeys.js";
import { MapView } from "./map.js";
import { dash, isRide } from "./modes.js";
import { PlaceField } from "./places.js";
import { Trouble, address, ask } from "./service.js";

const STEP = 600000; // milliseconds by which a journey without a ride is moved
const state = { region: null, journeys: [], chosen: 0, fields: null, by: "answer", search: null };
const map = new MapView(byId("map"), { pick, cell: async key => (await ask(`streets/${key}`)).streets });
const places = { from: new PlaceField("from", placed), to: new PlaceField("to", placed) };

const say = text => { byId("said").textContent = text; };

// Places
function placed(which, place) {
  map.mark(which, place?.lat == null ? null : place);
}

function pick(place, which = document.querySelector("input[name=sets]:checked").value) {
  places[which].set(place);
  say(`${which === "from" ? "From" : "To"} is ${place.name}.`);
  const other = which === "from" ? "to" : "from";
  document.querySelector(`input[name=sets][value=${other}]`).checked = true;
  if (places.from.place && places.to.place) search(byId("by").value);
}

// Asks as the form says. `by` is the command: answer, latest, few or profile.
async function search(by) {
  await during(async signal => {
    const fields = { from: await places.from.endpoint(), to: await places.to.endpoint(), ...rest() };
    if (!fields.from || !fields.to) {
      byId(fields.from ? "to" : "from").focus();
      return say("Where from, and where to? Write a name, or click on the map.");
    }
    remember(fields, by);
    const told = await ask(by, fields, signal);
    show(told, fields, by);
  });
}

// Does something that asks the service; what was asked before is given up.
async function during(run) {
  state.search?.abort();
  const { signal } = state.search = new AbortController();
  byId("results").setAttribute("aria-busy", "true");
  say("Searching …");
  clearFaults();
  try {
    await run(signal);
  } catch (error) {
    if (error.name === "AbortError") return;
    if (!(error instanceof Trouble)) console.error(error);
    say(error instanceof Trouble ? `No answer: ${error.message}` : "The page failed at this.");
  }
  if (!signal.aborted) byId("results").removeAttribute("aria-busy");
}

// What was told
function show(told, fields, by) {
  const source = { told, fields, by }, found = told.kind === "journey" ? [told] : told.journeys ?? [];
  Object.assign(state, { fields, by, journeys: found.map(journey => ({ ...journey, source })), chosen: 0 });
  proof(source);
  if (told.kind === "refused") return nothing(showFault(told));
  if (told.kind === "stopped") return nothing(stopped(told));
  if (!state.journeys.length) return nothing(without(told, by));
  choose(0);
  say(heading(told, by));
}

function nothing(text) {
  journeys.clear();
  map.journey([]);
  byId("turns").hidden = true;
  say(text);
}

const stopped = told => `Stopped: the search has more than ${told.labels.toLocaleString("en")} labels, the limit of this service. ` +
  "Whether there is a journey was not found out; an expression that allows less takes a smaller search.";

function without(told, by) {
  if (told.without != null) return `No ride is worth taking in this window: without one it takes ${span(told.without / 1000)}.`;
  if (by === "latest") return "No journey: nobody who travels like this can leave on the region's days and be there by then.";
  return "No journey: no way of the region travels like this, however late it arrives.";
}

function heading(told, by) {
  const [first] = state.journeys, count = state.journeys.length;
  if (by === "few") return `${count} ${count === 1 ? "journey" : "journeys"}: each ride more arrives earlier.`;
  if (by === "profile") return `${count} departures${told.without == null ? "" : `; without a ride it takes ${span(told.without / 1000)}`}.`;
  const day = parts(first.arrive).date;
  return by === "latest" ? `${named(parts(first.depart).date)}. No journey leaves later.` : `${named(day)}. No journey arrives earlier.`;
}

function choose(number) {
  const journey = state.journeys[state.chosen = number];
  journeys.list(state.journeys, number, choose);
  journeys.table(journey, leg => { map.light(leg); byId("map").scrollIntoView({ block: "nearest" }); });
  journeys.legend(journey, swatch);
  byId("turns").hidden = false;
  proof(journey.source);
  const [first, last] = [journey.legs[0], journey.legs.at(-1)];
  if (first) [["from", first.from], ["to", last.to]].forEach(([which, place]) => map.mark(which, place));
  map.journey(journey.legs);
  map.fitJourney();
}

// How far one gets from the place where the journey begins.
async function reach() {
  await during(async signal => {
    const fields = { from: await places.from.endpoint(), ...rest() };
    if (!fields.from) {
      byId("from").focus();
      return say("Where from? Write a name, or click on the map.");
    }
    const told = await ask("reach", fields, signal);
    byId("proof").hidden = true;
    if (told.kind === "refused") return nothing(showFault(told));
    const bands = new Bands(map, told.bands);
    nothing(`From ${byId("from").value} at ${fields.time} one gets to ${told.reached} of ${told.places} places, ${told.metres} m apart; ` +
      "the map shows those within an hour.");
    map.mark("from", told.origin);
    map.reach(bands);
    map.fit();
    byId("legend").replaceChildren(bands.legend());
  });
}

// Where the reply can be checked.
function proof({ told, fields, by }) {
  byId("proof").hidden = ["refused", "stopped"].includes(told.kind);
  const isLate = by === "latest", over = state.region.hierarchy && !isLate ? ` --hierarchy ${state.region.hierarchy}` : "";
  byId("certificate").textContent = ["few", "profile"].includes(by) ? "The certificate of the earliest arrival" : "The certificate";
  byId("certificate").href = address("certificate", { ...fields, kind: isLate ? "latest" : "answer" });
  byId("check").textContent = `modeplan verify${isLate ? "-latest" : ""} ${state.region.region} certificate${over}`;
  byId("block").textContent = told.block;
}

// Later and earlier departures. With rides: of the arrival the latest departure, then the next arrival, and its latest departure.
async function turn(isLater) {
  const journey = state.journeys[state.chosen], beside = state.chosen + (isLater ? 1 : -1);
  if (state.by === "few") Object.assign(state, { journeys: [journey], chosen: 0, by: "answer" });
  else if (state.journeys[beside]) return choose(beside);
  await during(async signal => {
    const source = await (journey.legs.some(isRide) ? ridden(journey, isLater, signal) : shifted(journey, isLater, signal)), { told } = source;
    if (told.kind === "stopped") return say(stopped(told));
    if (told.kind !== "journey") return say(told.kind === "refused" ? `Refused (${told.fault}): ${told.reason}.` : "There is none.");
    const at = state.chosen + (isLater ? 1 : 0);
    state.journeys.splice(at, 0, { ...told, source });
    choose(at);
    const leaves = moved(journeys.moves(told), 0);
    put({ ...leaves, by: "answer" });
    remember({ ...state.fields, ...leaves }, "answer");
    say(`${isLater ? "The next" : "The one before"}.`);
  });
}

// Asks the same for another time; answers what was told, and what was asked.
async function again(by, when, signal) {
  const fields = { ...state.fields, ...when };
  return { told: await ask(by, fields, signal), fields, by };
}

async function ridden(journey, isLater, signal) {
  if (!isLater) return again("latest", moved(journey.arrive, -1), signal);
  const last = await again("latest", moved(journey.arrive, 0), signal);
  if (last.told.kind !== "journey") return last;
  const next = await again("answer", moved(last.told.depart, 1), signal);
  return next.told.kind === "journey" ? again("latest", moved(next.told.arrive, 0), signal) : next;
}

const shifted = (journey, isLater, signal) => again("answer", moved(journeys.moves(journey), isLater ? STEP : -STEP), signal);

// A line as the map draws it for a mode.
function swatch(mode) {
  const canvas = made("canvas", { class: "swatch", width: 36, height: 12, "aria-hidden": "true" }), pen = canvas.getContext("2d");
  pen.strokeStyle = getComputedStyle(document.documentElement).getPropertyValue(`--${mode}`).trim();
  pen.lineWidth = 5;
  pen.lineCap = "round";
  pen.setLineDash(dash(mode));
  pen.moveTo(4, 6);
  pen.lineTo(33, 6);
  pen.stroke();
  return canvas;
}

// Beginning
async function follow() {
  const found = linked();
  if (!found) return;
  put(found);
  for (const which of ["from", "to"]) {
    const at = /^@(-?[\d.]+),(-?[\d.]+)$/.exec(found[which]);
    places[which].set(at ? { endpoint: found[which], name: found[which].slice(1), lat: Number(at[1]), lon: Number(at[2]) } : null);
    if (!at) places[which].input.value = found[which];
  }
  await search(["latest", "few", "profile"].includes(found.by) ? found.by : "answer");
}

function listen() {
  byId("ask").addEventListener("submit", event => { event.preventDefault(); search(byId("by").value); });
  byId("few").addEventListener("click", () => search("few"));
  byId("departures").addEventListener("click", () => search("profile"));
  byId("reach").addEventListener("click", reach);
  byId("earlier").addEventListener("click", () => turn(false));
  byId("later").addEventListener("click", () => turn(true));
  byId("swap").addEventListener("click", () => {
    const [from, to] = [places.from, places.to].map(field => field.place ?? { name: field.input.value });
    for (const [field, place] of [[places.from, to], [places.to, from]]) {
      field.set(place);
      if (!place.endpoint) field.place = null;
    }
  });
  byId("tools").addEventListener("click", event => {
    const go = { in: () => map.zoom(2 / 3), out: () => map.zoom(1.5), fit: () => map.fit() }[event.target.dataset.do];
    go?.();
  });
  addEventListener("popstate", follow);
}

async function begin() {
  try {
    const region = state.region = await ask("map");
    document.title = `Journeys in ${region.region}`;
    byId("about").textContent = `${region.region}: ${region.days === 1 ? "" : `${region.days} days from `}${named(region.first)}` +
      `${region.days === 1 ? "" : " on"}, ${region.stops.length} stops${region.zone ? `, zone ${region.zone}` : ""}.`;
    byId("departures").hidden = !region.can.includes("profile");
    byId("reach").hidden = !region.can.includes("matrix");
    fill(region, () => {});
    map.show(region);
    listen();
    await follow();
  } catch (error) {
    byId("about").textContent = `The region can't be shown: ${error.message}`;
  }
}

begin();
