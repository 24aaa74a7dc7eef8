// Clock texts of the planner, such as 20240701 07:36:00.000: a date, and the time since that day began, which may be past 24 hours.

const DAY = 86400000;

// A clock text as a date and milliseconds.
export function parts(clock) {
  const [date, time] = clock.split(" ");
  const [hours, minutes, seconds] = time.split(":");
  return { date, ms: (Number(hours) * 60 + Number(minutes)) * 60000 + Math.round(Number(seconds) * 1000) };
}

const utc = date => Date.UTC(date.slice(0, 4), date.slice(4, 6) - 1, date.slice(6));
const two = (number, count = 2) => String(number).padStart(count, "0");

// The date so many days later.
export const later = (date, days) => new Date(utc(date) + days * DAY).toISOString().slice(0, 10).replaceAll("-", "");

// The date and the time of a query so many milliseconds after a clock text.
export function moved(clock, by) {
  const { date, ms } = parts(clock);
  const whole = ms + by, days = Math.floor(whole / DAY);
  return { date: later(date, days), time: timeOf(whole - days * DAY) };
}

const timeOf = ms => `${two(Math.floor(ms / 3600000))}:${two(Math.floor(ms / 60000) % 60)}:${two(Math.floor(ms / 1000) % 60)}.${two(ms % 1000, 3)}`;

// Hours, minutes and seconds of a clock text.
export const hms = clock => clock.split(" ")[1].split(".")[0];

// A date for people, with its day of the week.
export function named(date) {
  const day = new Date(utc(date));
  return `${day.toLocaleDateString("en", { weekday: "short", timeZone: "UTC" })} ${date.slice(0, 4)}-${date.slice(4, 6)}-${date.slice(6)}`;
}

// How long something takes, in minutes and seconds, or hours and minutes.
export function span(seconds) {
  const whole = Math.round(seconds);
  return whole < 3600 ? `${Math.floor(whole / 60)}:${two(whole % 60)} min` : `${Math.floor(whole / 3600)}:${two(Math.floor(whole / 60) % 60)} h`;
}
