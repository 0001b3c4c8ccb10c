// A PDF as pictures of its pages, which the door has made. One comes after the other, as somebody
// gets there.

import { pictureOf } from '../net/door.js';
import { texts } from '../language/language.js';
import { announce } from '../ui/announce.js';
import { button, element } from '../ui/dom.js';
import { waitFor } from '../ui/messages.js';
import { sentenceOf } from '../text/words.js';

// The door shows none that is later.
const MOST = 1000;
const AHEAD = '800px';

const isOfPicture = ({ body }) => Object.hasOwn(texts.pages.none, body?.why);
const sentenceFor = (fault) =>
  (isOfPicture(fault) ? texts.pages.none[fault.body.why] : sentenceOf(fault));

async function figureOf({ blob, pages }, number) {
  const address = URL.createObjectURL(blob);
  const image = element('img', { src: address, alt: texts.pages.one(number, pages) });
  await image.decode().catch(() => {});
  URL.revokeObjectURL(address);
  return element('figure', {}, image,
    element('figcaption', { 'aria-hidden': 'true' }, texts.pages.one(number, pages)));
}

class Pages {
  constructor(path) {
    this.path = path;
    this.last = 0;
    this.tag = null;
    this.isAsked = false;
    this.isStopped = false;
    this.next = button(texts.pages.next, () => this.add(true), { class: 'small' });
    this.end = element('div', { class: 'pages-end' }, this.next);
    this.larger = button(texts.pages.larger, () => this.grow(),
      { class: 'small', 'aria-pressed': 'false' });
    this.pages = element('div', { class: 'pages' });
    this.shown = element('div', {}, this.pages, this.end);
  }

  grow() {
    const isLarge = this.pages.classList.toggle('large');
    this.larger.setAttribute('aria-pressed', String(isLarge));
  }

  async take(page) {
    this.last += 1;
    this.tag = page.tag;
    this.pages.append(await figureOf(page, this.last));
    const rest = page.pages - this.last;
    if (rest <= 0) this.end.remove();
    else if (this.last >= MOST) this.stop(texts.pages.rest(rest));
  }

  stop(words, ...more) {
    this.end.replaceChildren(element('p', { class: 'hint' }, words), ...more);
    this.isStopped = true;
  }

  fail(fault) {
    const again = button(texts.acts.anew, () => {
      this.end.replaceChildren(this.next);
      this.isStopped = false;
      this.add(true);
    }, { class: 'small' });
    this.stop(sentenceFor(fault), ...(isOfPicture(fault) ? [] : [again]));
    announce('bad', sentenceFor(fault));
  }

  async add(isPressed) {
    if (this.isAsked || this.isStopped) return;
    this.isAsked = true;
    try {
      const page = await waitFor(pictureOf(this.path, this.last + 1, this.tag));
      if (page === null) this.stop(texts.pages.none['too-much']);
      else {
        await this.take(page);
        if (isPressed) announce('good', texts.pages.one(this.last, page.pages));
      }
    } catch (fault) {
      this.fail(fault);
    } finally {
      this.isAsked = false;
    }
    this.watch();
  }

  // The next page comes before somebody is there. 'scrolls' is what it scrolls in, or null.
  watch(scrolls = this.scrolls) {
    this.scrolls = scrolls;
    this.watcher?.disconnect();
    this.watcher = new IntersectionObserver((seen) => {
      if (seen.at(-1).isIntersecting) this.add(false);
    }, { root: scrolls, rootMargin: AHEAD });
    if (this.end.isConnected && !this.isStopped) this.watcher.observe(this.end);
  }
}

// The document with its first page, {shown, larger, watch}; null where no pictures are made. What
// can't be shown is told in the place of a page.
export async function pagesOf(path) {
  const pages = new Pages(path);
  try {
    const first = await waitFor(pictureOf(path, 1));
    if (first === null) return null;
    await pages.take(first);
  } catch (fault) {
    if (!isOfPicture(fault)) throw fault;
    pages.stop(sentenceFor(fault));
  }
  return pages;
}
