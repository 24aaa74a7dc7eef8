// How the map moves by mouse, touch and keys, and what a click or a key on it means.

const STILL = 4; // pixels that a click may move

// Lets a map hear what is done to its canvas.
export function listen(map) {
  const { canvas } = map, fingers = new Fingers(map);
  canvas.addEventListener("wheel", event => {
    event.preventDefault();
    map.zoom(Math.exp(Math.max(-100, Math.min(100, event.deltaY)) / 400), event.offsetX, event.offsetY);
  }, { passive: false });
  canvas.addEventListener("pointerdown", event => fingers.down(event));
  canvas.addEventListener("pointermove", event => fingers.move(event));
  canvas.addEventListener("pointerup", event => fingers.up(event));
  canvas.addEventListener("pointercancel", event => fingers.up(event));
  canvas.addEventListener("keydown", event => key(map, event));
  for (const kind of ["focus", "blur"]) canvas.addEventListener(kind, () => map.draw());
}

class Fingers {
  constructor(map) {
    this.map = map;
    this.held = new Map();
    this.far = 0;
  }

  down(event) {
    if (!this.held.size) this.far = 0;
    this.held.set(event.pointerId, [event.offsetX, event.offsetY]);
    this.map.canvas.setPointerCapture(event.pointerId);
  }

  move(event) {
    const before = this.held.get(event.pointerId), now = [event.offsetX, event.offsetY];
    if (!before) return;
    const other = [...this.held].find(([id]) => id !== event.pointerId)?.[1];
    const gap = ([x, y]) => Math.hypot(x - other[0], y - other[1]) || 1;
    this.far += other ? Infinity : Math.hypot(now[0] - before[0], now[1] - before[1]);
    if (other) this.map.zoom(gap(before) / gap(now), ...other);
    else if (this.far > STILL) this.map.move(before[0] - now[0], before[1] - now[1]);
    this.held.set(event.pointerId, now);
  }

  up(event) {
    const isClick = this.held.size === 1 && this.far <= STILL && event.type === "pointerup";
    this.held.delete(event.pointerId);
    if (isClick && this.map.region) this.map.hears.pick(this.map.pointed(event.offsetX, event.offsetY));
  }
}

function key(map, event) {
  if (event.ctrlKey || event.metaKey || event.altKey || !map.region) return;
  const pick = which => map.hears.pick(map.pointed(map.canvas.clientWidth / 2, map.canvas.clientHeight / 2), which);
  const go = {
    ArrowLeft: () => map.move(-60, 0), ArrowRight: () => map.move(60, 0), ArrowUp: () => map.move(0, -60), ArrowDown: () => map.move(0, 60),
    "+": () => map.zoom(2 / 3), "=": () => map.zoom(2 / 3), "-": () => map.zoom(1.5), 0: () => map.fit(),
    f: () => pick("from"), t: () => pick("to"),
  }[event.key];
  if (!go) return;
  event.preventDefault();
  go();
}
