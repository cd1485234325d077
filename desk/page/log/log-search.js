// What the log is searched by: clearance, point, section, employee, login, day and reply.

import { formOf } from "../shared/drafts.js";
import { wholeTime } from "../shared/moments.js";
import { network } from "../shared/network.js";
import { viewOf } from "../shared/watch.js";
import { byEntries } from "./journal.js";
import { changedNames, employeesIn, pointsIn } from "./log-words.js";

// The work sections of records, by their requests.
const works = byEntries((entries) => new Map(entries.filter(({ command, reply }) => command.do === "request" && reply.card)
  .map(({ command, reply }) => [reply.card.clearance, command.section])));

// The sections that an entry is about: its own, and those at its points; without any that of its record's work.
export function sectionsIn(row) {
  const { section, from, to, sections } = row.entry.command;
  const atPoints = pointsIn(row).map((name) => network.points.get(name)).filter(Boolean).flatMap((point) => [point.from, point.to]);
  const own = [section, from, to, ...atPoints, ...(sections ? changedNames(sections) : [])].filter(Boolean);
  return own.length ? own : [works().get(row.id) ?? viewOf(row.id)?.work].filter(Boolean);
}

// What each field compares of an entry with what is searched for.
const FITS = {
  clearance: ({ id }) => [id ?? ""],
  point: pointsIn,
  section: sectionsIn,
  employee: employeesIn,
  login: ({ entry }) => [(entry.login ?? "").toUpperCase()],
};
const isOf = { accepted: ({ done }) => done, refused: ({ entry }) => entry.reply.reply === "refused" };

// Its form, and with what each of its fields is searched for, in capitals.
export class LogSearch {
  form;

  // `changed` is called when something else is searched for.
  constructor(changed) {
    this.form = formOf("log", changed);
  }

  said(part) {
    return this.form[part].value.trim().toUpperCase();
  }

  fits(row) {
    const { day, reply } = this.form, hasText = (part, text) => !text || FITS[part](row).some((name) => name.includes(text));
    return Object.keys(FITS).every((part) => hasText(part, this.said(part)))
      && (!day.value || wholeTime(row.at).startsWith(day.value)) && (!reply.value || isOf[reply.value](row));
  }
}
