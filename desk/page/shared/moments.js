// Moments: whole seconds since 1970, shown in this desk's local time.

const LOCAL = new Intl.DateTimeFormat("sv-SE", { dateStyle: "short", timeStyle: "medium" }); // as 2026-11-24 08:02:00

export const now = () => Math.floor(Date.now() / 1000);

function offsetText(date) {
  const minutes = -date.getTimezoneOffset(), size = Math.abs(minutes);
  const parts = [Math.floor(size / 60), size % 60].map((part) => String(part).padStart(2, "0"));
  return `${minutes < 0 ? "-" : "+"}${parts.join(":")}`;
}

// The whole moment, as 2026-11-24 08:02:00 +01:00.
export function wholeTime(seconds) {
  const date = new Date(seconds * 1000);
  return `${LOCAL.format(date)} ${offsetText(date)}`;
}

// The time of day, with the day before it where that is not today.
export function shortTime(seconds) {
  const [whole, today] = [seconds * 1000, Date.now()].map((time) => LOCAL.format(time));
  return whole.slice(0, 10) === today.slice(0, 10) ? whole.slice(11) : whole;
}

// What a field for date and time has, as 2026-11-24T08:02:00.
export const fieldTime = (seconds) => LOCAL.format(seconds * 1000).replace(" ", "T");

const inSeconds = (time) => (Number.isNaN(time) ? null : Math.floor(time / 1000));
export const secondsOfField = (text) => inSeconds(new Date(text).getTime());

// A moment as the register prints it, 2026-11-24 07:02:00 +00:00, in seconds; null where the text is none.
export function secondsOfPrinted(text) {
  const found = /^(\d{4}-\d\d-\d\d) (\d\d:\d\d:\d\d) ([+-]\d\d:\d\d)$/.exec(text);
  return inSeconds(found ? Date.parse(`${found[1]}T${found[2]}${found[3]}`) : NaN);
}

const UNITS = [[86400, "day"], [3600, "hour"], [60, "minute"], [1, "second"]];

// How long, in words: 7 seconds, 3 minutes 20 seconds, 2 hours 5 minutes, 4 days.
export function span(seconds) {
  let rest = Math.abs(seconds);
  const words = UNITS.map(([unit, word]) => {
    const number = Math.floor(rest / unit);
    rest %= unit;
    return number ? `${number} ${word}${number === 1 ? "" : "s"}` : "";
  });
  return words.filter(Boolean).slice(0, 2).join(" ") || "0 seconds";
}
