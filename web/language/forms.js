// How a language counts, lists, and writes numbers and days. Its table is made with these.

// 'and' and 'or' are its words before the last one of a list.
export function formsOf(locale, and, or) {
  const rules = new Intl.PluralRules(locale);
  const joined = (words, last) => (words.length < 2 ? words.join('')
    : `${words.slice(0, -1).join(', ')} ${last} ${words.at(-1)}`);
  const day = { day: 'numeric', month: 'long', year: 'numeric' };
  const number = (count) => count.toLocaleString(locale);
  return {
    number,
    and: (words) => joined(words, and),
    or: (words) => joined(words, or),
    // The number with the form of the noun that goes with it.
    count: (count, one, more) =>
      `${number(count)} ${rules.select(count) === 'one' ? one : more}`,
    day: (time, timeZone = undefined) => time.toLocaleDateString(locale, { ...day, timeZone }),
  };
}

// How a language writes moments and amounts.
export function writingOf(locale) {
  const written = (time, form) => time.toLocaleString(locale, form);
  return {
    clock: (time) => written(time, { hour: '2-digit', minute: '2-digit' }),
    amount: (many) => many.toLocaleString(locale),
    dates: {
      thisYear: (time) => written(time, { day: 'numeric', month: 'short' }),
      earlier: (time) => written(time, { day: 'numeric', month: 'short', year: 'numeric' }),
      exact: (time) => written(time, { dateStyle: 'full', timeStyle: 'medium' }),
    },
  };
}

// Names are set apart by a sign, so they stay as they are.
export const capital = (text) => text.replace(/^\p{Ll}/u, (first) => first.toUpperCase());
export const small = (text) => text.replace(/^\p{Lu}/u, (first) => first.toLowerCase());
