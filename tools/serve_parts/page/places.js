// Fields for places: a name that is looked for as it is written, an endpoint as a query has it, or a click on the map.

import { byId, made } from "./elements.js";
import { ask } from "./service.js";

const ENDPOINT = /^(n-?\d{1,18}|s[^ ]+|(foot|bike|car)?@-?[\d.]+,-?[\d.]+)$/;
const PAUSE = 150; // milliseconds without a key until a name is looked for

export class PlaceField {
  constructor(which, changed) {
    this.input = byId(which);
    this.list = byId(`${which}-list`);
    this.which = which;
    this.changed = changed;
    this.place = null;
    this.found = [];
    this.at = -1;
    this.input.addEventListener("input", () => this.written());
    this.input.addEventListener("keydown", event => this.key(event));
    this.input.addEventListener("blur", () => setTimeout(() => document.activeElement === this.input || this.close(), 150));
  }

  // The place as it is: { endpoint, name, lat?, lon? }.
  set(place) {
    this.place = place;
    this.input.value = place ? place.name : "";
    this.close();
    this.changed(this.which, place);
  }

  // The endpoint for a query: of the place that was chosen, or what is written, or the first stop of that name.
  async endpoint() {
    const text = this.input.value.trim();
    if (this.place || !text) return this.place?.endpoint ?? "";
    if (!ENDPOINT.test(text)) {
      const { stops } = await ask("stops", { name: text, most: 1 });
      if (stops.length) this.set(stops[0]);
      return stops[0]?.endpoint ?? `s${text.replaceAll(" ", "%20%")}`;
    }
    const { stops } = text.startsWith("s") ? await ask("stops", { name: text.slice(1), most: 5 }) : { stops: [] };
    const stop = stops.find(one => one.endpoint === text);
    if (stop) this.set(stop);
    return text;
  }

  written() {
    this.place = null;
    this.changed(this.which, null);
    clearTimeout(this.timer);
    this.timer = setTimeout(() => this.look(), PAUSE);
  }

  async look() {
    const text = this.input.value.trim();
    if (!text || ENDPOINT.test(text) && !text.startsWith("s")) return this.close();
    try {
      const { stops } = await ask("stops", { name: text.replace(/[\x00-\x1f]/g, " "), most: 8 });
      if (text === this.input.value.trim() && document.activeElement === this.input) this.open(stops);
    } catch {
      this.close();
    }
  }

  open(stops) {
    this.found = stops;
    this.list.replaceChildren(...stops.map((stop, number) => made("li", {
      role: "option", id: `${this.which}-${number}`, "aria-selected": "false", onpointerdown: event => { event.preventDefault(); this.set(stop); },
    }, stop.name, stop.endpoint.slice(1) === stop.name ? null : made("small", {}, stop.endpoint.slice(1)))));
    this.at = -1;
    this.list.hidden = !stops.length;
    this.input.setAttribute("aria-expanded", String(!this.list.hidden));
  }

  close() {
    clearTimeout(this.timer);
    this.open([]);
    this.input.removeAttribute("aria-activedescendant");
  }

  key(event) {
    if (event.key === "Escape") return this.close();
    if (this.list.hidden) return;
    const step = { ArrowDown: 1, ArrowUp: -1 }[event.key];
    if (step) {
      event.preventDefault();
      this.choose((this.at + step + this.found.length) % this.found.length);
    } else if (event.key === "Enter" && this.at >= 0) {
      event.preventDefault();
      this.set(this.found[this.at]);
    }
  }

  choose(number) {
    this.at = Math.max(0, number);
    [...this.list.children].forEach((option, k) => option.setAttribute("aria-selected", String(k === this.at)));
    this.list.children[this.at].scrollIntoView({ block: "nearest" });
    this.input.setAttribute("aria-activedescendant", `${this.which}-${this.at}`);
  }
}
