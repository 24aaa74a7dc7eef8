// Examples of expressions, and the place of a fault in one.

import { made } from "./elements.js";

export const EXAMPLES = [
  ["public transport, with walks", "foot? (transit foot?)*"],
  ["public transport, three rides at most", "foot? (transit foot?){0,3}"],
  ["a walk", "foot"],
  ["my own bike", "bike foot?"],
  ["a hired bike, with walks", "foot bike foot"],
  ["my bike to the station, then rail or metro", "bike foot? (rail|metro)+ foot?"],
  ["rail, metro or tram, no bus", "foot? ((rail|metro|tram) foot?)+"],
  ["park and ride", "car foot? (transit foot?)+"],
  ["the car, and a walk", "car foot?"],
  ["anything at all", "any*"],
];

// The expression with its fault marked, where the planner told at which byte it is.
export function marked(expression, fault) {
  if (!/^(syntax|deep) /.test(fault.fault)) return null;
  const bytes = new TextEncoder().encode(expression), text = part => new TextDecoder().decode(part);
  const before = text(bytes.slice(0, fault.number)), rest = [...text(bytes.slice(fault.number))];
  return made("code", {}, before, made("mark", {}, rest[0] ?? "(its end)"), rest.slice(1).join(""));
}
