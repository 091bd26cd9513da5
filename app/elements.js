// The page's elements: made, filled, and moved. What is shown is text alone, never markup. Motion takes 200 ms, and
// is off where the system asks for less of it.
import { hueOf, threadName } from "./names.js";

export const byId = name => document.getElementById(name);

// what stands in a list of children: not what is null or false
const childrenOf = list => list.flat(Infinity).filter(
  one => one !== null && one !== undefined && one !== false && one !== ""
);

function dress(element, classes, given, children) {
  if (classes.length) element.setAttribute("class", classes.join(" "));
  for (const [name, value] of Object.entries(given)) {
    if (value === false || value === null || value === undefined) continue;
    if (name.startsWith("on")) element.addEventListener(name.slice(2), value);
    else if (name === "vars") for (const [key, one] of Object.entries(value)) element.style.setProperty(key, one);
    else element.setAttribute(name, value === true ? "" : value);
  }
  element.append(...childrenOf(children));
  return element;
}
// h("button.name", { onclick, title, vars: { "--part": 1 } }, "text", child)
export function h(kind, given = {}, ...children) {
  const [tag, ...classes] = kind.split(".");
  return dress(document.createElement(tag), classes, given, children);
}
// The same for a drawing.
export function s(kind, given = {}, ...children) {
  const [tag, ...classes] = kind.split(".");
  return dress(document.createElementNS("http://www.w3.org/2000/svg", tag), classes, given, children);
}
export const fill = (element, ...children) => element.replaceChildren(...childrenOf(children));
// Fills an element, in which those that are there already stay: only what is new is laid out.
export function arrange(element, list) {
  const wanted = new Set(list);
  for (const one of [...element.childNodes]) if (!wanted.has(one)) one.remove();
  let next = element.firstChild;
  for (const one of list) {
    if (one === next) next = next.nextSibling;
    else element.insertBefore(one, next);
  }
}
// Fills an element, in which what is equal to what stands there already stays; it must do the same when it is clicked.
export function renew(element, ...children) {
  const old = [...element.childNodes];
  arrange(element, childrenOf(children).map((one, k) => (old[k] && old[k].isEqualNode(one) ? old[k] : one)));
}
// Elements by all that they show: what shows the same as in the last drawing is the same element.
export function makeShelf() {
  let last = new Map();
  let now = new Map();
  return {
    begin() {
      last = now;
      now = new Map();
    },
    take(key, make) {
      const one = last.get(key) || make();
      now.set(key, one);
      return one;
    }
  };
}

export function button(text, onclick, given = {}) {
  const { kind = "", ...rest } = given;
  return h("button" + kind, { type: "button", onclick, ...rest }, text);
}
// Long texts are smaller, so that they have room where short ones have.
export const sizeOf = text => (text.length > 130 ? ".is-longer" : text.length > 60 ? ".is-long" : "");
export const who = (program, t) => h("b.who." + hueOf(t), {}, threadName(program, t));

// The parts of a sentence as elements.
export function shown(program, parts) {
  return parts.map(part => {
    if (typeof part === "string") return part;
    return part.strong !== undefined ? h("strong", {}, part.strong) : who(program, part.thread);
  });
}

// ---- motion
export const MOTION = 200;
const isCalm = () => matchMedia("(prefers-reduced-motion: reduce)").matches;

export function pulse(element, frames) {
  if (element && !isCalm()) element.animate(frames, { duration: MOTION, easing: "ease-out" });
}
// Where the things of `root` are; a thing is known by `data-fly`.
export function placesIn(root) {
  const places = new Map();
  if (isCalm()) return places;
  for (const one of root.querySelectorAll("[data-fly]")) places.set(one.dataset.fly, one.getBoundingClientRect());
  return places;
}
// What has another place than before moves there from its old one.
export function fly(root, before) {
  const now = before.size ? placesIn(root) : before;
  for (const one of before.size ? root.querySelectorAll("[data-fly]") : []) {
    const from = before.get(one.dataset.fly);
    const to = now.get(one.dataset.fly);
    if (!from || (Math.abs(from.left - to.left) < 2 && Math.abs(from.top - to.top) < 2)) continue;
    pulse(one, [{ transform: `translate(${from.left - to.left}px, ${from.top - to.top}px)` }, { transform: "none" }]);
  }
}
