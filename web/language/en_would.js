// What is said where the program was asked what a change would bring about. 'most' is how many
// groups together were asked for.

const ONE_BY_ONE = 'There is so much here that groups were looked at one by one only: whoever '
  + 'is in several may gain or lose more.';
const TWO_AT_MOST = 'There is so much here that at most two groups together were looked at: '
  + 'whoever is in more may gain or lose more.';

export const EN_WOULD = {
  title: 'It can’t be said what would come of this',
  noAnswer: 'It can’t be said now what would come of this: there is no answer. Nothing was '
    + 'changed. Try again in a minute.',
  tooMuch: 'There is too much below to say what would come of this. Do it further down, for less '
    + 'at once.',
  changed: 'It can’t be said what would come of this: somebody changed something here meanwhile. '
    + 'Nothing was changed. Try again.',
  fewerGroups: (most) => (most < 2 ? ONE_BY_ONE : TWO_AT_MOST),
  perhaps: 'Perhaps also, by what isn’t known of groups',
};
