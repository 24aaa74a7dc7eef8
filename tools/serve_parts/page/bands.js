// Streets by how soon one is there, drawn in bands of five minutes.

import { made } from "./elements.js";

const COLOURS = ["#fde725", "#c2df23", "#86d549", "#52c569", "#2ab07f", "#1e9b8a", "#25858e", "#2d708e", "#38588c", "#433e85", "#482173", "#440154"];
const WIDTH = 4; // pixels of a street

export class Bands {
  // `bands` are { minutes, streets } in the order of their minutes.
  constructor(map, bands) {
    this.bands = bands.map(({ minutes, streets }, number) => ({ minutes, count: streets.length, path: map.path(streets), colour: COLOURS[number] }));
  }

  // Paints the streets; the pen counts in units of the map.
  paint(map, pen) {
    for (const [width, colour] of [[WIDTH + 2, () => map.ink("stop")], [WIDTH, band => band.colour]])
      for (const band of [...this.bands].reverse()) {
        pen.strokeStyle = colour(band);
        pen.lineWidth = map.unit * width;
        pen.stroke(band.path);
      }
  }

  legend() {
    const shown = this.bands.filter(band => band.count);
    return made("ul", {}, ...shown.map(band => made("li", {}, swatch(band.colour), ` ${band.minutes} min`)));
  }
}

function swatch(colour) {
  const canvas = made("canvas", { class: "swatch", width: 14, height: 12, "aria-hidden": "true" }), pen = canvas.getContext("2d");
  pen.fillStyle = colour;
  pen.fillRect(0, 1, 14, 10);
  return canvas;
}
