"""The parts of tools/picture: blocks and regions as texts, legs for travellers, the page and the GeoJSON."""
