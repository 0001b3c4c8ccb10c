// A document looked at without a download: text, which is set as text, images, PDF, and the text
// of what an office writes.

import * as api from '../net/api.js';
import { texts } from '../language/language.js';
import { button, element, nameText } from '../ui/dom.js';
import { downloadOne, save } from './download.js';
import { isOfOffice, textOfOffice } from './office_text.js';
import { pagesOf } from './pages.js';
import { readTagged } from '../net/door.js';
import { noteTag } from '../net/given_out.js';
import { showDialog, tellFault, waitFor } from '../ui/messages.js';

const IMAGES = {
  png: 'image/png', jpg: 'image/jpeg', jpeg: 'image/jpeg', gif: 'image/gif', webp: 'image/webp',
  avif: 'image/avif', bmp: 'image/bmp', svg: 'image/svg+xml',
};
const STAYS = 600000;

const none = () => element('p', { class: 'empty' }, texts.folder.noPreview);

// A picture from a blob runs no script, not even an SVG's.
function imageOf(bytes, type, name) {
  const address = URL.createObjectURL(new Blob([bytes], { type }));
  const image = element('img', { src: address, alt: name });
  image.addEventListener('load', () => URL.revokeObjectURL(address));
  image.addEventListener('error', () => {
    URL.revokeObjectURL(address);
    image.replaceWith(none());
  });
  return image;
}

// A browser lays out no more text at once.
const MOST_TEXT = 2097152;

// The text or its beginning, or null where these bytes aren't UTF-8 or are no text.
function textOf(bytes) {
  const isCut = bytes.byteLength > MOST_TEXT;
  try {
    const text = new TextDecoder('utf-8', { fatal: true })
      .decode(isCut ? bytes.slice(0, MOST_TEXT) : bytes, { stream: isCut });
    return /[\u0000-\u0008\u000e-\u001a]/.test(text) ? null : text;
  } catch {
    return null;
  }
}

// A browser's viewer of PDF doesn't run in a frame that is shut off from the page, and the page
// allows no other frame. In a tab it shows what it is given as PDF, and as nothing else.
const endingOf = (name) => name.slice(name.lastIndexOf('.') + 1).toLowerCase();
export const isPdf = (name) => endingOf(name) === 'pdf';

// Returns whether the browser let it: it opens a tab only soon after a press.
function showInTab(bytes, name) {
  const address = URL.createObjectURL(new File([bytes], name, { type: 'application/pdf' }));
  setTimeout(() => URL.revokeObjectURL(address), STAYS);
  const tab = open(address, '_blank');
  if (tab !== null) tab.opener = null;
  return tab !== null;
}

const pdfOf = (bytes, name) => element('div', { class: 'empty' },
  element('p', {}, texts.folder.pdf),
  button(texts.folder.openInTab, () => showInTab(bytes, name), { class: 'primary in-tab' }));

function textShown(text, name, isWhole) {
  if (text === null) return none();
  if (text === '') return element('p', { class: 'empty' }, texts.folder.emptyDocument);
  const shown = element('pre', { tabindex: '0', dir: 'auto', role: 'region', 'aria-label': name },
    text);
  return isWhole ? shown
    : element('div', {}, shown, element('p', { class: 'hint' }, texts.folder.beginning));
}

async function officeShown(bytes, name) {
  const text = await textOfOffice(bytes, name);
  return text === null ? none() : element('div', {},
    element('p', { class: 'hint' }, texts.folder.textAlone),
    textShown(text.slice(0, MOST_TEXT), name, text.length <= MOST_TEXT));
}

async function contentOf(bytes, name) {
  const ending = endingOf(name);
  if (Object.hasOwn(IMAGES, ending)) return imageOf(bytes, IMAGES[ending], name);
  if (isPdf(name)) return pdfOf(bytes, name);
  return isOfOffice(name) ? officeShown(bytes, name)
    : textShown(textOf(bytes), name, bytes.byteLength <= MOST_TEXT);
}

const read = (path) => waitFor(readTagged('doc', path));

async function openTab(path) {
  const tagged = await read(path);
  if (!showInTab(await tagged.blob.arrayBuffer(), api.nameOf(path))) await showBytes(path, tagged);
}

// A PDF, or where no pictures are made of it, a tab with it.
export async function openPdf(path) {
  const pages = await pagesOf(path);
  if (pages === null) await openTab(path);
  else await showPages(path, pages);
}

export async function preview(path) {
  const pages = isPdf(api.nameOf(path)) ? await pagesOf(path) : null;
  if (pages === null) await showBytes(path, await read(path));
  else await showPages(path, pages);
}

const closing = (finish) =>
  button(texts.acts.close, () => finish(null), { class: 'primary' });

async function showBytes(path, { blob, tag }) {
  const name = api.nameOf(path);
  const content = await contentOf(await blob.arrayBuffer(), name);
  const download = () => {
    save(blob, name);
    noteTag(path, tag);
  };
  await showDialog(nameText(name), (finish) => {
    const close = closing(finish);
    close.setAttribute('autofocus', '');
    return [element('div', { class: 'content' }, content),
      element('div', { class: 'actions' }, button(texts.acts.download, download), close)];
  }, 'preview');
}

// The arrow keys scroll in it at once.
async function showPages(path, pages) {
  const name = api.nameOf(path);
  const content = element('div', { class: 'content', tabindex: '0', role: 'region',
    'aria-label': name, autofocus: true }, pages.shown);
  const act = (words, does) => button(words, () => does(path).catch(tellFault));
  await showDialog(nameText(name), (finish) => {
    queueMicrotask(() => pages.watch(content));
    return [content, element('div', { class: 'actions' }, pages.larger,
      act(texts.acts.download, downloadOne), act(texts.folder.openInTab, openTab),
      closing(finish))];
  }, 'of-pdf');
}

// Shows a document in 'box', as long as 'isCurrent()'.
export async function showDocument(path, box, isCurrent) {
  const name = api.nameOf(path);
  const pages = isPdf(name) ? await pagesOf(path) : null;
  const shown = pages?.shown
    ?? await contentOf(await (await waitFor(api.read(path))).arrayBuffer(), name);
  if (!isCurrent()) return;
  box.replaceChildren(element('div', { class: 'shown-document' }, pages?.larger, shown));
  pages?.watch(null);
  // A browser opens a tab after a press alone: that is one key.
  /** @type {any} */ (box.querySelector('.in-tab'))?.focus();
}
