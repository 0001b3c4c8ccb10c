// That it can't be said what would come of a change, in words.

import { texts } from '../language/language.js';
import { faultWords, sentenceOf } from './words.js';

// Whether it is the program that has no answer.
export const isUnsaid = (fault) => fault.asked?.word === 'would';

// What the program says of a list that the room would refuse too. Of those that it has none is so.
const listFault = (fault) => (isUnsaid(fault) && fault.status === 400
  ? / (A\d+) /.exec(String(fault.body?.line ?? '')) : null);
export const isListFault = (fault) => listFault(fault) !== null;

// Why there is no answer. What else failed is told as what it is.
export function noAnswerWords(fault) {
  if (!isUnsaid(fault)) return sentenceOf(fault);
  if (isListFault(fault)) return faultWords(listFault(fault)[1]);
  const line = String(fault.body?.line ?? '');
  if (fault.status === 413 || line.includes(' W6 ')) return texts.would.tooMuch;
  return fault.status === 400 && fault.body?.why === 'refused' ? texts.would.changed
    : texts.would.noAnswer;
}

// Those of so many groups together were asked for.
export const lessWords = ({ isExact, most }) => (isExact || most === 3 ? null
  : texts.would.fewerGroups(most));
