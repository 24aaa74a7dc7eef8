// What is asked: the fields of the form, the link that brings them back, and the faults at their places.

import { later, named } from "./clocks.js";
import { byId, made } from "./elements.js";
import { EXAMPLES, marked } from "./expressions.js";

const FAULTS = ["from", "to", "date", "time", "expr"];
const OWN = ""; // the example that is none: the expression was written

// Fills the lists, of the region's days and of the examples.
export function fill(region, changed) {
  const days = Array.from({ length: region.days }, (_, day) => later(region.first, day));
  byId("date").replaceChildren(...days.map(date => made("option", { value: date }, named(date))));
  byId("example").replaceChildren(...EXAMPLES.map(([what, expr]) => made("option", { value: expr }, what)), made("option", { value: OWN }, "as written below"));
  byId("expr").value = EXAMPLES[0][1];
  byId("example").addEventListener("change", event => { if (event.target.value !== OWN) byId("expr").value = event.target.value; });
  byId("expr").addEventListener("input", matchExample);
  byId("by").addEventListener("change", changed);
}

function matchExample() {
  const text = byId("expr").value;
  byId("example").value = EXAMPLES.some(([, expr]) => expr === text) ? text : OWN;
}

// The time as a query has it: a field of the browser leaves the seconds out where they are 0.
const timeOf = text => text.length === 5 ? `${text}:00` : text;

// The fields but for the places.
export const rest = () => ({ date: byId("date").value, time: timeOf(byId("time").value), expr: byId("expr").value.replace(/\s+/g, " ").trim() });

// What the link says, or null where it says nothing.
export function linked() {
  const found = Object.fromEntries(new URLSearchParams(location.hash.slice(1)));
  return found.from && found.to ? found : null;
}

// Puts what a link says into the form, but for the places.
export function put({ date, time, expr, by }) {
  if (date) byId("date").value = date;
  if (time) byId("time").value = time.slice(0, 8);
  if (expr) byId("expr").value = expr;
  byId("by").value = by === "latest" ? "latest" : "answer";
  matchExample();
}

// Keeps the question in the address.
export function remember(fields, by) {
  const hash = `#${new URLSearchParams({ ...fields, by })}`;
  if (location.hash !== hash) history.pushState(null, "", hash);
  byId("link").href = hash;
}

// Shows a refusal at the field that it belongs to; answers what is to be said of it elsewhere.
export function showFault(told) {
  clearFaults();
  const place = FAULTS.includes(told.parameter) ? told.parameter : null;
  if (!place) return `Refused (${told.fault}): ${told.reason}.`;
  byId(place).setAttribute("aria-invalid", "true");
  const where = place === "expr" ? marked(rest().expr, told) : null;
  byId(`${place}-fault`).replaceChildren(`${told.reason}${where ? ": " : "."}`, where ?? "");
  byId(place).focus();
  return `Refused (${told.fault}).`;
}

// No field has a fault.
export function clearFaults() {
  for (const name of FAULTS) {
    byId(name).removeAttribute("aria-invalid");
    byId(`${name}-fault`).replaceChildren();
  }
}
