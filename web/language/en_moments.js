// When something changed and how large it is, in English.

import { small, writingOf } from './forms.js';

const { clock, amount, dates } = writingOf('en-GB');

export const EN_MOMENTS = {
  today: (time) => `Today ${clock(time)}`,
  yesterday: (time) => `Yesterday ${clock(time)}`,
  before: (when) => `Before ${small(when)}`,
  when: 'Changed', who: 'By', size: 'Size',
  news: 'What is new', newIn: (name) => ['What is new in ', name], again: 'Look again',
  caption: 'Documents that changed last, the newest first.',
  nothingNew: 'Nothing that you may read here has changed since dates are kept.',
  explained: 'The latest 50 at most, of what you may read.',
  noDates: 'This room keeps no dates.',
  notShown: 'What changed can’t be shown.',
  ...dates,
  bytes: (many) => `${amount(many)} B`,
  kilobytes: (many) => `${amount(many)} kB`,
  megabytes: (many) => `${amount(many)} MB`,
};
