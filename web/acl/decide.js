// What the page's own buttons know of a list: which entries could rule a right, and who may remove
// something by what the room rules of three rights. What lists grant to whom is asked of the
// program (net/would.js).

// The entries that could rule this right on the object that the list stands on.
const isRuling = ({ type, flags }) => (type === 'A' || type === 'D') && !flags.includes('i');
export const inForce = (entries, letter) =>
  entries.filter((entry) => isRuling(entry) && entry.mask.includes(letter));

// What is ruled of a right, as the room says it.
export const RULINGS = { allowed: 'A', denied: 'D', silent: null };

// The rule of deleting, by what is ruled of d at the object, and of D and w at its folder: {may,
// by}, of which 'by' is the right that decides.
export function deletion({ d, D, w }) {
  if (d === 'A' || D === 'A') return { may: true, by: d === 'A' ? 'd' : 'D' };
  if (d === 'D' || D === 'D') return { may: false, by: d === 'D' ? 'd' : 'D' };
  return { may: w === 'A', by: 'w' };
}
