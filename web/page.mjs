/**
 * The page that shows a run: the app, `vuthgal.html`, with four texts in it. Each has an element of its own, which a
 * browser shows only where it runs no script.
 */
const NAMES = ["listing", "source", "schedule", "trace"];
const ESCAPED = { "&": "&amp;", "<": "&lt;", ">": "&gt;", "\r": "&#13;" };

/** How many choices a page has at most, and how many bytes its trace. */
export const MOST_CHOICES = 1_000_000;
export const MOST_TRACE = 16_777_216;

/** The app with these texts in it. The line feed behind `<pre>` isn't a part of its text, so a browser drops it. */
export function pageWith(app, texts) {
  const put = (page, name) => {
    const begin = `<pre id="${name}">`;
    const text = texts[name].replace(/[&<>\r]/g, (sign) => ESCAPED[sign]);
    return page.replace(new RegExp(`${begin}\n?</pre>`), () => `${begin}\n${text}</pre>`);
  };
  return NAMES.reduce(put, app);
}

const TOKEN = /([tx])(\d{1,2})(?:\*(\d{1,10}))?/g;

/** How many choices the tokens of a schedule stand for. */
export function choicesIn(schedule) {
  let count = 0;
  for (const [, , , times] of schedule.matchAll(TOKEN)) count += Number(times ?? 1);
  return count;
}

/** The tokens of a schedule as a page has them: without zeros in front, with one blank between them. */
export function tokensIn(schedule) {
  const tokens = [...schedule.matchAll(TOKEN)].map(([, letter, thread, times]) => {
    const count = Number(times ?? 1);
    return `${letter}${Number(thread)}${count === 1 ? "" : `*${count}`}`;
  });
  return tokens.join(" ");
}
