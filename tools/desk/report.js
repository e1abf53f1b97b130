// Shows the picture so that the first suspects and the failing positions are in view, and in full size where it is clicked. Lights the class of a
// row in the picture and moves there; a second click, or the key Escape, puts it out. A page opened with #class7 lights the class of number
// 7 at once, and with #classb1 the first bridge. What is folded is printed unfolded.
"use strict";
const picture = document.querySelector(".picture");
const SMALLEST = 0.1; // of the full size
let chosen = null;
function box(nodes) {
  const all = nodes.map((it) => it.getBoundingClientRect());
  const least = (side) => Math.min(...all.map((it) => it[side])), most = (side) => Math.max(...all.map((it) => it[side]));
  return { left: least("left"), top: least("top"), width: most("right") - least("left"), height: most("bottom") - least("top") };
}
function centre(nodes) {
  if (!nodes.length) return;
  const place = box(nodes), frame = picture.getBoundingClientRect();
  picture.scrollLeft += place.left + place.width / 2 - frame.left - frame.width / 2;
  picture.scrollTop += place.top + place.height / 2 - frame.top - frame.height / 2;
}
function nodesOf(kinds) {
  return [...picture.querySelectorAll(kinds)];
}
function fit(place) {
  const svg = picture.querySelector("svg"), natural = svg.viewBox.baseVal.width * 4 / 3, before = svg.getBoundingClientRect();
  svg.style.width = natural + "px";
  if (place) {
    const now = svg.getBoundingClientRect(), frame = picture.getBoundingClientRect();
    picture.scrollLeft += now.left + (place.clientX - before.left) * now.width / before.width - frame.left - frame.width / 2;
    picture.scrollTop += now.top + (place.clientY - before.top) * now.height / before.height - frame.top - frame.height / 2;
    return;
  }
  const all = box(nodesOf(".first, .bridge, .goal")), room = Math.min((picture.clientWidth - 40) / all.width, (picture.clientHeight - 40) / all.height);
  svg.style.width = natural * Math.min(1, Math.max(SMALLEST, room)) + "px";
  centre(nodesOf(".first, .bridge, .goal"));
}
function light(number) {
  chosen = number === chosen ? null : number;
  for (const it of document.querySelectorAll("tr[data-class]")) it.classList.toggle("lit", it.dataset.class === chosen);
  if (!picture) return;
  const starts = nodesOf(".at" + chosen);
  picture.classList.toggle("chosen", chosen !== null && starts.length > 0);
  for (const it of nodesOf("g.node, g.edge")) it.classList.toggle("lit", it.classList.contains("in" + chosen));
  if (chosen === null || !starts.length) return;
  picture.scrollIntoView({ block: "center" });
  centre(starts);
}
if (picture) {
  let whole = false;
  picture.addEventListener("click", (it) => fit((whole = !whole) ? it : null));
  fit(null);
}
for (const it of document.querySelectorAll("tr[data-class]")) {
  it.addEventListener("click", (event) => { if (!event.target.closest("details")) light(it.dataset.class); });
}
document.addEventListener("keydown", (it) => { if (it.key === "Escape" && chosen !== null) light(chosen); });
addEventListener("beforeprint", () => document.querySelectorAll("details").forEach((it) => { it.open = true; }));
const named = /^#class(b?[0-9]+)$/.exec(location.hash);
if (named) light(named[1]);
