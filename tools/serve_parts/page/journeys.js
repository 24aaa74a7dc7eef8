// Journeys as a list with times and changes, and as a table leg by leg.

import { hms, span } from "./clocks.js";
import { byId, made } from "./elements.js";
import { by, isRide, nameOf } from "./modes.js";

const changes = journey => Math.max(0, journey.legs.filter(isRide).length - 1);
const counted = (count, one, many) => `${count} ${count === 1 ? one : many}`;
const metres = length => length < 1000 ? `${length} m` : `${(length / 1000).toFixed(1)} km`;

// The moment that the traveller moves first: a wait at the beginning is none of the journey.
export function moves(journey) {
  const leg = journey.legs.find(one => one.mode !== "wait");
  return leg ? leg.departure : journey.depart;
}

function summary(journey) {
  const rides = journey.legs.filter(isRide).length;
  const told = rides ? `${counted(rides, "ride", "rides")}, ${counted(changes(journey), "change", "changes")}` : "no ride";
  return `${told}: ${journey.word.join(" ") || "nothing to do"}`;
}

// The list, of which one is chosen.
export function list(journeys, chosen, choose) {
  byId("journeys").replaceChildren(...journeys.map((journey, number) => made("li", {}, made("button", {
    type: "button", class: "choice", "aria-current": number === chosen ? "true" : null, onclick: () => choose(number),
  }, made("b", {}, `${hms(moves(journey))} – ${hms(journey.arrive)}`), ` ${lasts(journey)}`, made("span", {}, summary(journey))))));
}

function lasts(journey) {
  const wait = journey.legs[0]?.mode === "wait" ? journey.legs[0].seconds : 0;
  return span(journey.seconds - wait);
}

// The table of a journey. `show` is called with the number of a leg that is to be shown on the map.
export function table(journey, show) {
  const heads = ["", "By", "From", "To", "Leaves", "Arrives", "Takes"];
  const rows = journey.legs.map((leg, number) => row(leg, number, show));
  const place = byId("journey");
  if (!rows.length) return place.replaceChildren(made("p", {}, "The journey ends where and when it begins."));
  place.replaceChildren(made("div", { class: "wide" }, made("table", {},
    made("caption", {}, "The journey, leg by leg"),
    made("thead", {}, made("tr", {}, ...heads.map(head => made("th", { scope: "col" }, head)))),
    made("tbody", {}, ...rows))));
}

function row(leg, number, show) {
  const moved = leg.from.node !== leg.to.node;
  const time = (...inside) => made("td", { class: "time" }, ...inside);
  return made("tr", { "data-mode": leg.mode },
    made("th", { scope: "row" }, made("button", {
      type: "button", class: "show", "aria-label": `Show part ${number + 1} on the map`, onclick: () => show(number),
    }, String(number + 1))),
    made("td", {}, by(leg), between(leg)), made("td", {}, leg.from.name), made("td", {}, moved ? leg.to.name : ""),
    time(hms(leg.departure)), time(hms(leg.arrival)),
    time(span(leg.seconds), leg.mode === "wait" ? null : made("small", {}, metres(leg.metres))));
}

function between(leg) {
  const calls = leg.trip ? leg.trip.calls.slice(1, -1) : [];
  if (!calls.length) return null;
  return made("details", {}, made("summary", {}, `${counted(calls.length, "stop", "stops")} between`),
    made("ol", {}, ...calls.map(call => made("li", {}, `${call.name}, ${hms(call.arrival)}`))));
}

// The modes of a journey with the lines that they have on the map.
export function legend(journey, swatch) {
  const modes = [...new Set(journey.legs.map(leg => leg.mode).filter(mode => mode !== "wait"))];
  byId("legend").replaceChildren(made("ul", {}, ...modes.map(mode => made("li", {}, swatch(mode), ` ${nameOf(mode)}`))));
}

// Nothing is shown.
export function clear() {
  for (const name of ["journeys", "journey", "legend"]) byId(name).replaceChildren();
}
