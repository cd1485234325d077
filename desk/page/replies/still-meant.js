// Whether a command still means what it meant at the control that gives it: it names a step by its number alone, and of a
// record it does not say what is shown beside the button.

const sameStep = ({ step }, seen, now) => seen.card.round === now.card.round && seen.steps[step - 1]?.text === now.steps[step - 1]?.text;
const sameHolder = (command, seen, now) => seen.card.holder === now.card.holder;

const SAME = {
  instruct: sameStep, repeat: sameStep, report: sameStep, amend: sameStep,
  grant: sameHolder, transfer: sameHolder,
  cancel: (command, seen, now) => seen.card.phase === now.card.phase,
};

// `seen` is the view that the control was made from, `now` that of the register.
export const isStillMeant = (command, seen, now) => SAME[command.do]?.(command, seen, now) ?? true;
