// The keys. It is given what they do, and the elements in which they mean something else.

const isField = element => /^(INPUT|TEXTAREA|SELECT)$/.test(element.tagName);
const isButton = element => element.tagName === "BUTTON" || element.tagName === "A";

// What stands in the help.
export const KEY_TEXTS = [
  ["\u2190 \u2192", "a choice back, forward"],
  ["Page Up, Down", "the same: a presenter\u2019s keys"],
  ["Home End", "start, end"],
  ["Space", "play"],
  ["1 \u2026 9", "that name is next"],
  ["[ ]", "the run before, after"],
  ["Esc", "close this; back to the fork"],
  ["+ \u2212 0", "size"],
  ["p v o", "picture, values, orders"],
  ["f", "timeline alone"],
  ["e", "edit the program"],
  ["s", "side by side"],
  ["a \u2026 d", "an answer of the quiz"],
  ["?", "this help"]
];

// act: names of keys, and `escape(isField)`, `number(n)`, `letter(sign)`, `print()`; hasLetters(): whether keys of
// one sign are on
export function listenToKeys(act, hasLetters) {
  document.addEventListener("keydown", event => {
    if ((event.ctrlKey || event.metaKey) && event.key === "p") return act.print();
    if (event.ctrlKey || event.metaKey || event.altKey) return;
    if (event.key === "Escape") return act.escape(isField(event.target) ? event.target : null);
    if (isField(event.target)) return;
    if (isButton(event.target) && (event.key === " " || event.key === "Enter")) return;
    if (event.target.closest(".sheet")) return;
    const go = act.keys[event.key];
    if (go) {
      event.preventDefault();
      return go();
    }
    if (!hasLetters()) return;
    if (/^[1-9]$/.test(event.key)) return act.number(Number(event.key));
    if (act.letter(event.key)) event.preventDefault();
  });
}
