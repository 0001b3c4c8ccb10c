// When something changed and how large it is, in German.

import { small, writingOf } from './forms.js';

const { clock, amount, dates } = writingOf('de-DE');

export const DE_MOMENTS = {
  today: (time) => `Heute ${clock(time)}`,
  yesterday: (time) => `Gestern ${clock(time)}`,
  before: (when) => `Spätestens ${small(when)}`,
  when: 'Geändert', who: 'Von', size: 'Größe',
  news: 'Was ist neu', newIn: (name) => ['Was ist neu in ', name], again: 'Neu laden',
  caption: 'Dokumente, die zuletzt geändert wurden, die neuesten zuerst.',
  nothingNew: 'Seit es Daten gibt, hat sich hier nichts geändert, was Sie lesen dürfen.',
  explained: 'Höchstens die letzten 50 von denen, die Sie lesen dürfen.',
  noDates: 'Dieser Raum hält keine Daten von Änderungen fest.',
  notShown: 'Was sich geändert hat, kann nicht gezeigt werden.',
  ...dates,
  bytes: (many) => `${amount(many)} B`,
  kilobytes: (many) => `${amount(many)} kB`,
  megabytes: (many) => `${amount(many)} MB`,
};
