// What a view shows once a command was accepted, until the register's own view comes: on a slow line what was accepted
// is shown at once. Only what the command itself says is changed; tests, grounds and points are the register's.

function withStep(view, number, changes) {
  return { steps: view.steps.map((step, place) => (place === number - 1 ? { ...step, ...changes } : step)) };
}

const asWritten = (texts) => ({ steps: texts.map((text) => ({ text, state: "Waiting", reader: null })) });

const CHANGES = {
  order: (view, { steps }) => asWritten(steps),
  restore: (view, { steps }) => asWritten(steps),
  instruct: (view, { step }) => withStep(view, step, { state: "Instructed", reader: null }),
  repeat: (view, { step, by }) => withStep(view, step, { state: "Repeated", reader: by }),
  report: (view, { step, done }) => withStep(view, step, done ? { state: "Done" } : { state: "Waiting", reader: null }),
  amend: (view, { step }) => withStep(view, step, { text: view.steps[step - 1].text.replace(/^CLOSE /, "LEAVE ") }),
  sign_on: (view, { crew }) => ({ crews: [...view.crews, crew].sort() }),
  sign_off: (view, { crew }) => ({ crews: view.crews.filter((one) => one !== crew) }),
  grant: () => ({}), release: () => ({}), cancel: () => ({}), transfer: () => ({}),
};

const MAKES_ROUND = ["order", "restore"];

// Whether the steps that the view has are those of the record as the reply has it. What is read out may be a LEAVE by now:
// another desk amends a CLOSE of a restoring order.
function hasSteps(view, { do: what, step }, { phase, round, steps }) {
  if (MAKES_ROUND.includes(what)) return true;
  const mayBeAmended = what === "instruct" && phase === "Restoring" && view.steps[step - 1]?.text.startsWith("CLOSE ");
  return view.card.round === round && view.steps.length === steps && !mayBeAmended;
}

// Null where the command changes what only the register can say, or the view is an older one.
export function viewAfter(view, command, card) {
  const changes = CHANGES[command.do];
  return changes && hasSteps(view, command, card) ? { ...view, ...changes(view, command), card } : null;
}
