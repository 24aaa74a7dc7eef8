// The page of an isochrone: the map with the bands that it is given.

import { Bands } from "./bands.js";
import { byId } from "./elements.js";
import { MapView } from "./map.js";

const data = JSON.parse(byId("data").textContent);
const view = new MapView(byId("map"), { pick() {}, cell: () => Promise.reject() });
view.show(data.region);
const shown = new Bands(view, data.bands);
view.mark("from", data.origin);
view.reach(shown);
byId("legend").replaceChildren(shown.legend());
byId("tools").addEventListener("click", event => {
  ({ in: () => view.zoom(2 / 3), out: () => view.zoom(1.5), fit: () => view.fit() })[event.target.dataset.do]?.();
});
