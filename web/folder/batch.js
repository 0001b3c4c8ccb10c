// Something done with several objects, one after the other: with a count, a stop, and another try
// for what failed.

import { texts } from '../language/language.js';
import { endsAll, mayHelpAgain } from '../net/retry.js';
import { button, element } from '../ui/dom.js';
import { showDialog, waitFor } from '../ui/messages.js';
import { stoppable } from '../ui/panel.js';
import { asWork } from '../ui/working.js';
import { sentenceOf } from '../text/words.js';

async function once(objects, does, panel, stopsAtFault) {
  const failed = [];
  let done = 0;
  for (const [index, object] of objects.entries()) {
    panel.show(index, objects.length);
    if (panel.isStopped()) return { done, failed, left: objects.slice(index), stopped: true };
    try {
      await does(object);
      done += 1;
    } catch (fault) {
      failed.push({ object, fault });
      const ends = stopsAtFault || endsAll(fault);
      if (ends) return { done, failed, left: objects.slice(index + 1), stopped: false };
    }
  }
  return { done, failed, left: [], stopped: false };
}

export const askAgain = (title, fault) => showDialog(title, (finish) => [
  element('p', {}, sentenceOf(fault)),
  element('div', { class: 'actions' },
    button(texts.folder.leaveThem, () => finish(null), { autofocus: true }),
    button(texts.acts.tryAgain, () => finish('again'), { class: 'primary' }))]);

// 'title' is said meanwhile, and 'told(done, whole)' before another try. Returns {done, failed:
// [{object, fault}], left, stopped}: how many were done, which failed, and which weren't tried.
export async function inTurn(objects, does, { title, told }, stopsAtFault = false) {
  let [done, rest] = [0, objects];
  for (;;) {
    const panel = stoppable(title, rest.length);
    const last = await waitFor(asWork(once(rest, does, panel, stopsAtFault)));
    panel.remove();
    done += last.done;
    const fault = last.failed.map((one) => one.fault).find(mayHelpAgain);
    if (last.stopped || !fault) return { ...last, done };
    if (!(await askAgain(told(done, objects.length), fault))) return { ...last, done };
    rest = [...last.failed.map(({ object }) => object), ...last.left];
  }
}
