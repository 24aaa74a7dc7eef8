// The map: streets, stops and a journey on a canvas.

import { listen } from "./gestures.js";
import { dash, ends, isRide } from "./modes.js";

const NEAR = 14; // pixels within which a click means a stop
const NAMES = 3.5; // metres or less that a pixel is where stops have their names
const CROWD = 1000; // stops in view that are too many to be shown
const UNIT = 1e7; // of a place, in a degree
const METRE = 90; // units of latitude in a metre
const SMALLEST = 0.5, LARGEST = 4e6; // units that a pixel is

export class MapView {
  constructor(canvas, hears) {
    this.canvas = canvas;
    this.hears = hears; // { pick(place, which), cell(key) }
    this.pen = canvas.getContext("2d");
    this.x = this.y = 0; // the middle of the map, in units of latitude from the origin
    this.unit = 1000; // units that a pixel is
    this.region = null;
    this.cells = new Map();
    this.stops = [];
    this.legs = [];
    this.marks = { from: null, to: null };
    this.bands = null;
    listen(this);
    new ResizeObserver(() => this.draw()).observe(canvas);
    matchMedia("(prefers-color-scheme: dark)").addEventListener("change", () => this.draw());
  }

  // Takes in the region: its box, its streets and its stops.
  show(region) {
    const [south, west, north, east] = region.box;
    this.region = region;
    this.origin = [(south + north) / 2, (west + east) / 2];
    this.wide = Math.max(0.01, Math.cos(this.origin[0] / UNIT * Math.PI / 180));
    this.overview = this.path(region.streets);
    this.stops = region.stops.map(stop => ({ ...stop, at: this.at(stop.lat, stop.lon) }));
    this.cells.clear();
    this.fit();
  }

  at(lat, lon) {
    return [(lon * UNIT - this.origin[1]) * this.wide, this.origin[0] - lat * UNIT];
  }

  place(x, y) {
    return [(this.origin[0] - y) / UNIT, (x / this.wide + this.origin[1]) / UNIT];
  }

  // Chains of streets, each a first place and then steps, as one path.
  path(chains) {
    const path = new Path2D();
    for (const chain of chains) {
      let lat = chain[0], lon = chain[1];
      path.moveTo((lon - this.origin[1]) * this.wide, this.origin[0] - lat);
      for (let k = 2; k < chain.length; k += 2) {
        lat += chain[k];
        lon += chain[k + 1];
        path.lineTo((lon - this.origin[1]) * this.wide, this.origin[0] - lat);
      }
    }
    return path;
  }

  // The view
  fit(points) {
    const [south, west, north, east] = this.region.box;
    const all = points?.length ? points : [this.at(south / UNIT, west / UNIT), this.at(north / UNIT, east / UNIT)];
    const xs = all.map(p => p[0]), ys = all.map(p => p[1]);
    const [left, right, top, bottom] = [Math.min(...xs), Math.max(...xs), Math.min(...ys), Math.max(...ys)];
    [this.x, this.y] = [(left + right) / 2, (top + bottom) / 2];
    const room = 60, wide = Math.max(50, this.canvas.clientWidth - room), high = Math.max(50, this.canvas.clientHeight - room);
    this.scale(Math.max((right - left) / wide, (bottom - top) / high, points ? METRE : 1));
  }

  fitJourney() {
    this.fit(this.legs.flatMap(leg => leg.points));
  }

  scale(unit) {
    this.unit = Math.min(LARGEST, Math.max(SMALLEST, unit));
    this.draw();
  }

  zoom(factor, px = this.canvas.clientWidth / 2, py = this.canvas.clientHeight / 2) {
    const [x, y] = this.under(px, py), before = this.unit;
    this.unit = Math.min(LARGEST, Math.max(SMALLEST, before * factor));
    this.x = x + (this.x - x) * this.unit / before;
    this.y = y + (this.y - y) * this.unit / before;
    this.draw();
  }

  move(px, py) {
    this.x += px * this.unit;
    this.y += py * this.unit;
    this.draw();
  }

  under(px, py) {
    return [this.x + (px - this.canvas.clientWidth / 2) * this.unit, this.y + (py - this.canvas.clientHeight / 2) * this.unit];
  }

  pixel([x, y]) {
    return [(x - this.x) / this.unit + this.canvas.clientWidth / 2, (y - this.y) / this.unit + this.canvas.clientHeight / 2];
  }

  // What is shown
  journey(legs) {
    this.bands = null;
    this.legs = legs.map(leg => ({ ...leg, points: leg.coordinates.map(([lon, lat]) => this.at(lat, lon)) }));
    this.lit = null;
    this.draw();
  }

  reach(bands) {
    this.bands = bands;
    this.draw();
  }

  light(number) {
    this.lit = number;
    this.fit(this.legs[number].points);
  }

  mark(which, place) {
    this.marks[which] = place && this.at(place.lat, place.lon);
    this.draw();
  }

  // The place that a click means: a stop near it, or where it is.
  pointed(px, py) {
    const gap = stop => Math.hypot(...this.pixel(stop.at).map((p, k) => p - [px, py][k]));
    let best = null, least = NEAR;
    for (const stop of this.stops) if (gap(stop) < least) [best, least] = [stop, gap(stop)];
    if (best) return { endpoint: best.endpoint, name: best.name, lat: best.lat, lon: best.lon };
    const [lat, lon] = this.place(...this.under(px, py));
    const text = `${lat.toFixed(6)},${lon.toFixed(6)}`;
    return { endpoint: `@${text}`, name: text, lat, lon };
  }

  draw() {
    this.due ??= requestAnimationFrame(() => { this.due = null; this.paint(); });
  }

  paint() {
    const { canvas, pen } = this, dots = devicePixelRatio || 1, { clientWidth: wide, clientHeight: high } = canvas;
    if (!this.region || !wide || !high) return;
    if (canvas.width !== Math.round(wide * dots) || canvas.height !== Math.round(high * dots))
      [canvas.width, canvas.height] = [Math.round(wide * dots), Math.round(high * dots)];
    const css = getComputedStyle(canvas);
    this.ink = name => css.getPropertyValue(`--${name}`).trim();
    pen.setTransform(dots, 0, 0, dots, 0, 0);
    pen.clearRect(0, 0, wide, high);
    this.paintStreets(dots, wide, high);
    pen.setTransform(dots, 0, 0, dots, 0, 0);
    this.paintStops(wide, high);
    this.legs.forEach((leg, number) => this.paintLeg(leg, number));
    this.paintEnds();
    if (document.activeElement === canvas) this.paintCross(wide, high);
  }

  paintStreets(dots, wide, high) {
    const { pen } = this, k = dots / this.unit;
    pen.setTransform(k, 0, 0, k, (wide / 2) * dots - this.x * k, (high / 2) * dots - this.y * k);
    pen.lineJoin = pen.lineCap = "round";
    pen.strokeStyle = this.ink("street");
    pen.lineWidth = this.unit * 1.2;
    const cells = this.closeCells(wide, high);
    if (cells) cells.forEach(path => path && pen.stroke(path));
    else pen.stroke(this.overview);
    this.bands?.paint(this, pen);
  }

  // The cells in view, where the map is close enough for them; those that are not there yet are asked for.
  closeCells(wide, high) {
    const size = this.region.cell;
    if (!size || size / this.unit < 150) return null;
    const [[north, west], [south, east]] = [this.place(...this.under(0, 0)), this.place(...this.under(wide, high))];
    const [top, left, bottom, right] = [north, west, south, east].map(degrees => Math.floor(degrees * UNIT / size));
    const paths = [];
    for (let row = bottom - 1; row <= top + 1; row++)
      for (let column = left - 1; column <= right + 1; column++) paths.push(this.cell(row, column));
    return paths.includes(undefined) ? null : paths;
  }

  cell(row, column) {
    const key = `${row}/${column}`;
    if (!this.cells.has(key)) {
      this.cells.set(key, undefined);
      this.hears.cell(key).then(streets => { this.cells.set(key, this.path(streets)); this.draw(); }, () => this.cells.set(key, null));
    }
    return this.cells.get(key);
  }

  paintStops(wide, high) {
    const { pen } = this, close = this.unit / METRE <= NAMES;
    pen.fillStyle = this.ink("halo");
    pen.strokeStyle = this.ink("stop");
    pen.lineWidth = 1.2;
    pen.font = "12px system-ui, sans-serif";
    const size = close ? 4 : 2.2;
    const shown = this.stops.map(stop => [...this.pixel(stop.at), stop.name])
      .filter(([x, y]) => x > -50 && y > -20 && x < wide + 50 && y < high + 20);
    if (shown.length > CROWD) return;
    for (const [x, y, name] of shown) {
      pen.beginPath();
      pen.arc(x, y, size, 0, 7);
      pen.fill();
      pen.stroke();
      if (close) this.write(name, x + 7, y + 4);
    }
  }

  write(text, x, y) {
    const { pen } = this;
    pen.strokeStyle = this.ink("halo");
    pen.lineWidth = 3.5;
    pen.strokeText(text, x, y);
    pen.fillStyle = this.ink("ink");
    pen.fillText(text, x, y);
    pen.fillStyle = this.ink("halo");
    pen.strokeStyle = this.ink("stop");
    pen.lineWidth = 1.2;
  }

  paintLeg(leg, number) {
    if (leg.mode === "wait" || leg.points.length < 2) return;
    const { pen } = this;
    pen.lineJoin = pen.lineCap = "round";
    pen.beginPath();
    leg.points.map(p => this.pixel(p)).forEach(([x, y], k) => k ? pen.lineTo(x, y) : pen.moveTo(x, y));
    pen.setLineDash([]);
    pen.strokeStyle = number === this.lit ? "#ffd24d" : isRide(leg) ? this.ink("stop") : this.ink("halo");
    pen.lineWidth = number === this.lit ? 14 : isRide(leg) ? 8 : 7;
    pen.stroke();
    pen.strokeStyle = this.ink(leg.mode);
    pen.lineWidth = isRide(leg) ? 5.5 : 4.5;
    pen.setLineDash(dash(leg.mode));
    pen.stroke();
    pen.setLineDash([]);
  }

  paintEnds() {
    const { pen } = this;
    for (const [which, letter] of ends) {
      const place = this.marks[which];
      if (!place) continue;
      const [x, y] = this.pixel(place);
      pen.beginPath();
      pen.arc(x, y, 9, 0, 7);
      pen.fillStyle = this.ink("ink");
      pen.fill();
      pen.strokeStyle = this.ink("halo");
      pen.lineWidth = 2;
      pen.stroke();
      pen.fillStyle = this.ink("paper");
      pen.font = "700 12px system-ui, sans-serif";
      pen.textAlign = "center";
      pen.fillText(letter, x, y + 4.5);
      pen.textAlign = "left";
    }
  }

  paintCross(wide, high) {
    const { pen } = this;
    pen.strokeStyle = this.ink("accent");
    pen.lineWidth = 1.5;
    pen.beginPath();
    for (const [dx, dy] of [[10, 0], [0, 10]]) {
      pen.moveTo(wide / 2 - dx, high / 2 - dy);
      pen.lineTo(wide / 2 + dx, high / 2 + dy);
    }
    pen.stroke();
  }
}
