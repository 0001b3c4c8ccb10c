// Those who are more than one in German, so that a verb goes with them.

export const EVERYONE = 'alle';
export const SIGNED_IN = 'alle Angemeldeten';
export const OTHERS = 'alle übrigen Angemeldeten';
const SEVERAL = [EVERYONE, SIGNED_IN, OTHERS, 'alle ohne Anmeldung'];

const areMany = (names) => names.length > 1 || SEVERAL.includes(names[0]);
// One form of a verb or the other.
export const verb = (names, one, more) => (areMany(names) ? more : one);
