"""How a click finds its element.

A late answer may redraw or move the elements of a page between the moment when a test looks where one is and the moment when the mouse is pressed there. So
the page is given a guard for the length of one click: events that would reach anything but the element are withheld, and the click is known to have missed.
"""

from __future__ import annotations

import json

# Gives the place for the mouse, or a text that says why there is none yet. Marks of an SVG lie over one another, so there the group around an element counts.
_AIM = """(async () => {
  const element = document.querySelector(SELECTOR);
  if (!element) return "it is not there";
  const middle = () => { const box = element.getClientRects()[0]; return box ? [box.x + box.width / 2, box.y + box.height / 2] : [NaN, NaN]; };
  element.scrollIntoView({ block: "center", inline: "center", behavior: "instant" });
  const before = middle();
  await new Promise((done) => { requestAnimationFrame(() => requestAnimationFrame(done)); setTimeout(done, 1000); });
  const [x, y] = middle();
  if (document.querySelector(SELECTOR) !== element) return "it was drawn anew";
  if (x !== before[0] || y !== before[1]) return "it moves, or is hidden";
  const target = element instanceof SVGElement ? element.closest("a, g") || element : element;
  const top = document.elementFromPoint(x, y);
  if (!target.contains(top)) return "it is behind " + (top ? top.outerHTML.slice(0, 120) : "the edge");
  const kinds = ["pointerdown", "mousedown", "pointerup", "mouseup", "click"];
  let met = false;
  const guard = (event) => {
    if (!event.isTrusted) return;
    const inside = target.contains(event.target);
    met ||= inside && event.type === "click";
    if (!inside) { event.stopImmediatePropagation(); event.preventDefault(); }
  };
  const each = (change) => kinds.forEach((kind) => window[change](kind, guard, true));
  each("addEventListener");
  window.browserAim = { hit() { each("removeEventListener"); return met; } };
  return [x, y];
})()"""


def aim(selector: str) -> str:
    """The expression that finds the element of a selector and guards the next click."""
    return _AIM.replace("SELECTOR", json.dumps(selector))
