// Documents and folders handed to the browser as files.

import * as api from '../net/api.js';
import { texts } from '../language/language.js';
import { readTagged, zipped } from '../net/door.js';
import { noteTag } from '../net/given_out.js';
import { button, element } from '../ui/dom.js';
import { tell, waitFor } from '../ui/messages.js';
import { newPanel } from '../ui/panel.js';
import { isolated } from '../text/words.js';

export function save(blob, name) {
  const address = URL.createObjectURL(blob);
  const link = element('a', { href: address, download: name });
  document.body.append(link);
  link.click();
  link.remove();
  setTimeout(() => URL.revokeObjectURL(address), 60000);
}

// Fetches the bytes first, so that a denial can be shown as a sentence.
export const downloadOne = (path) => saveWhole(api.nameOf(path), async (signal) => {
  const { blob, tag } = await readTagged('doc', path, signal);
  await noteTag(path, tag);
  return blob;
}, SOON);

// How long something may take that nobody wants to stop.
const SOON = 1000;

// What 'fetches' gets is saved under this name, unless somebody stops it before. 'pause' is how
// long it isn't said that it is under way.
export async function saveWhole(name, fetches, pause = 0) {
  const stopping = new AbortController();
  const stop = button(texts.acts.stop, () => stopping.abort(), { class: 'small' });
  const show = () => newPanel(texts.acts.download, isolated(name), stop);
  let panel = pause === 0 ? show() : null;
  const timer = setTimeout(() => { panel ??= show(); }, pause);
  try {
    const blob = await waitFor(fetches(stopping.signal));
    if (blob === null) tell('bad', texts.folder.tooMany);
    else if (!stopping.signal.aborted) save(blob, name);
  } catch (fault) {
    if (!stopping.signal.aborted) throw fault;
  } finally {
    clearTimeout(timer);
    panel?.remove();
  }
}

// A folder with all in it, or with these names alone, as one ZIP file. What may not be read is left
// out, which is said in it.
export const downloadWhole = (folder, names = null) =>
  saveWhole(`${folder === '/' ? texts.folder.zip : api.nameOf(folder)}.zip`,
    (signal) => zipped(folder, names, signal));
