// Whether what lies further down is looked at, with a button that stops it or tries again.

import { texts } from '../language/language.js';
import { button, element } from './dom.js';
import { sentenceOf } from '../text/words.js';

const endingWords = ({ fault }) => (fault === null ? texts.messages.stopped
  : `${texts.messages.failed} ${sentenceOf(fault)}`);

// {shown, draw}. 'again' is called when it is to go on. It is nothing once all was looked at.
export function lookingLine(looking, again) {
  // That it goes on isn't read aloud, the end is.
  const busy = element('p', { class: 'hint' });
  const told = element('p', { role: 'status' });
  const { stop, anew } = texts.acts;
  const press = button(stop, () => {
    if (press.textContent === stop) looking.stop();
    else {
      looking.goOn();
      again();
    }
  }, { class: 'small' });
  const line = element('div', { class: 'looking', hidden: true }, busy, told, press);
  const draw = (isBusy) => {
    const isOver = !isBusy && looking.ended === null;
    busy.textContent = isBusy ? texts.messages.lookingAtAll : '';
    told.textContent = isBusy || isOver ? '' : endingWords(looking.ended);
    press.textContent = isBusy ? stop : anew;
    line.hidden = isOver;
  };
  return { shown: line, draw };
}
