"use strict";
(() => {
  const map = document.getElementById("map"), said = document.getElementById("said");
  const buttons = [...document.querySelectorAll(".choice")];
  let box = [0, 0, 1000, 1000], view = box;
  document.documentElement.classList.add("js");

  // the view, and how many units of the drawing a pixel of the screen is
  const unit = () => Math.max(view[2] / (map.clientWidth || 600), view[3] / (map.clientHeight || 400));
  function draw() {
    map.setAttribute("viewBox", view.join(" "));
    map.style.setProperty("--u", unit());
  }
  const fit = () => { view = box; draw(); };
  function zoom(factor, x, y) {
    const wide = view[2] * factor;
    if (wide < 200 || wide > 4e9) return;
    view = [x + (view[0] - x) * factor, y + (view[1] - y) * factor, wide, view[3] * factor];
    draw();
  }
  const middle = () => [view[0] + view[2] / 2, view[1] + view[3] / 2];
  const move = (dx, dy) => { view = [view[0] + dx, view[1] + dy, view[2], view[3]]; draw(); };
  function at(event) {
    const frame = map.getBoundingClientRect(), [x, y] = middle(), u = unit();
    return [x + (event.clientX - frame.left - frame.width / 2) * u, y + (event.clientY - frame.top - frame.height / 2) * u];
  }

  // choosing
  const every = (kind, value, run) => document.querySelectorAll(kind).forEach(e => run(e, e.dataset.choice === value));
  function light(leg) {
    document.querySelectorAll(".lit").forEach(e => e.classList.remove("lit"));
    if (leg !== null) document.querySelectorAll(`.chosen [data-leg="${leg}"]`).forEach(e => e.localName !== "button" && e.classList.add("lit"));
  }
  function choose(value) {
    light(null);
    every(".journey, .ends, .answer", value, (e, is) => e.classList.toggle("chosen", is));
    every(".choice", value, (e, is) => is ? e.setAttribute("aria-current", "true") : e.removeAttribute("aria-current"));
    const answer = document.querySelector("section.chosen");
    box = document.querySelector(".journey.chosen, .ends.chosen").dataset.box.split(" ").map(Number);
    fit();
    said.textContent = document.querySelector(".choice[aria-current]").textContent;
    document.getElementById("map-title").textContent = "Map of " + answer.querySelector("h2").textContent;
    document.getElementById("answers").scrollTop = 0;
  }
  // the answer that the address names, as #7
  const linked = () => buttons.find(b => "#" + b.dataset.link === location.hash);
  buttons.forEach(b => b.addEventListener("click", () => {
    choose(b.dataset.choice);
    history.replaceState(null, "", "#" + b.dataset.link);
  }));
  function follow(button) {
    if (!button) return;
    choose(button.dataset.choice);
    button.scrollIntoView({ block: "nearest" });
  }
  addEventListener("hashchange", () => follow(linked()));
  document.getElementById("answers").addEventListener("click", event => {
    const button = event.target.closest(".show");
    if (!button) return;
    light(button.dataset.leg);
    const leg = document.querySelector(`.journey.chosen .leg[data-leg="${button.dataset.leg}"]`);
    if (!leg) return;
    const b = leg.getBBox(), room = 400;
    view = [b.x - room, b.y - room, b.width + 2 * room, b.height + 2 * room];
    draw();
  });

  // mouse, touch and keys
  document.getElementById("tools").addEventListener("click", event => {
    const what = event.target.dataset.do;
    if (what === "fit") { light(null); fit(); } else if (what) zoom(what === "in" ? 2 / 3 : 1.5, ...middle());
  });
  map.addEventListener("wheel", event => {
    event.preventDefault();
    zoom(Math.exp(Math.max(-100, Math.min(100, event.deltaY)) / 400), ...at(event));
  }, { passive: false });
  const held = new Map();
  map.addEventListener("pointerdown", event => {
    held.set(event.pointerId, [event.clientX, event.clientY]);
    map.setPointerCapture(event.pointerId);
    map.classList.add("held");
  });
  map.addEventListener("pointermove", event => {
    const before = held.get(event.pointerId);
    if (!before) return;
    const other = [...held].find(([id]) => id !== event.pointerId), now = [event.clientX, event.clientY], u = unit();
    if (other) {
      const gap = p => Math.hypot(p[0] - other[1][0], p[1] - other[1][1]) || 1;
      zoom(gap(before) / gap(now), ...at({ clientX: other[1][0], clientY: other[1][1] }));
    } else move((before[0] - now[0]) * u, (before[1] - now[1]) * u);
    held.set(event.pointerId, now);
  });
  const release = event => { held.delete(event.pointerId); if (!held.size) map.classList.remove("held"); };
  map.addEventListener("pointerup", release);
  map.addEventListener("pointercancel", release);
  map.addEventListener("keydown", event => {
    const far = 60 * unit(), go = {
      ArrowLeft: () => move(-far, 0), ArrowRight: () => move(far, 0), ArrowUp: () => move(0, -far), ArrowDown: () => move(0, far),
      "+": () => zoom(2 / 3, ...middle()), "=": () => zoom(2 / 3, ...middle()), "-": () => zoom(1.5, ...middle()), "0": fit,
    }[event.key];
    if (go && !event.ctrlKey && !event.metaKey && !event.altKey) { event.preventDefault(); go(); }
  });
  addEventListener("resize", draw);
  addEventListener("beforeprint", fit);
  follow(linked() ?? buttons[0]);
})();
