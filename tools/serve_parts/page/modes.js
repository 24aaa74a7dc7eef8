// How means of transport are drawn and named.

const NAMES = { foot: "on foot", bike: "by bike", car: "by car", link: "to or from a stop", wait: "wait", other: "other transit" };
const DASHES = {
  foot: [0.1, 7], bike: [11, 7], car: [15, 6, 0.1, 6], link: [2.5, 6], rail: [10, 8], ferry: [14, 7], cable: [5, 6], lift: [3, 8], funicular: [18, 6],
  trolley: [12, 6, 3, 6], other: [8, 5],
};
const ROADS = ["foot", "bike", "car", "link", "wait"];

export const ends = [["from", "A"], ["to", "B"]];
export const isRide = leg => !ROADS.includes(leg.mode);
export const dash = mode => DASHES[mode] ?? [];
export const nameOf = mode => NAMES[mode] ?? mode;

// What a leg is done by, for people.
export function by(leg) {
  if (!leg.trip) return leg.mode === "link" ? linkOf(leg) : nameOf(leg.mode);
  const { name, route, headsign } = leg.trip;
  return `${nameOf(leg.mode)} ${route ? [route, headsign].filter(Boolean).join(" to ") : headsign || name}`;
}

function linkOf(leg) {
  const [first, last] = [leg.from.node, leg.to.node].map(node => node.split(":")[0]);
  if (["stop", "switch"].includes(last)) return first === last ? "change" : `to the ${last}`;
  return ["stop", "switch"].includes(first) ? `from the ${first}` : "change";
}
