// Schedules as lists of choices: `t0*3 x1` is t0, t0, t0, x1. It is given texts and lists, and plays nothing.

// The choices of a schedule, but no more than one above `most`, so that its reader knows that there are more.
export function choicesOf(schedule, most = Infinity) {
  const out = [];
  // one text for all choices of a thread
  const known = new Map();
  for (const word of schedule.split(/\s+/)) {
    if (!word) continue;
    const [name, count] = word.split("*");
    const token = known.get(name) || name;
    known.set(name, token);
    for (let n = Math.min(Number(count || 1), most + 1 - out.length); n > 0; n--) out.push(token);
    if (out.length > most) break;
  }
  return out;
}

export function scheduleOf(choices) {
  const out = [];
  for (let i = 0, n; i < choices.length; i += n) {
    for (n = 1; choices[i + n] === choices[i]; n++);
    out.push(choices[i] + (n > 1 ? "*" + n : ""));
  }
  return out.join(" ");
}

// How many choices two runs have in common from the start.
export function commonOf(left, right) {
  let n = 0;
  while (n < left.length && n < right.length && left[n] === right[n]) n++;
  return n;
}
