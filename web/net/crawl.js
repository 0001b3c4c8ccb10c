// What lies below folders, as far as it may be read: the door tells it by one request for each, and
// only while somebody waits for it. It can be stopped, and asked for again. Nothing here draws the
// page.

import { namesOf, parentOf } from './api.js';
import { differsBelow } from './door.js';
import { seenBelow } from './seen_below.js';
import { printList } from '../acl/entries.js';
import { afterMoving } from '../acl/inherit.js';
import { FOLLOWS } from '../acl/question.js';

// What was seen is drawn after so many milliseconds for the first time, and then again and again.
const [SOON, LATER] = [400, 1000];

// Folders before documents, since more depends on them, from the top down.
const isFolder = ({ kind }) => kind === 'folder';
const depthOf = ({ path }) => namesOf(path).length;
const fromTop = (one, other) => Number(isFolder(other)) - Number(isFolder(one))
  || depthOf(one) - depthOf(other) || (one.path < other.path ? -1 : 1);

// What was seen is good for so long.
const OLD = 5 * 60 * 1000;

// Of two looks that meet, what each couldn't see is told once.
export const together = (...those) => [...new Map(those.flat()
  .map((one) => [`${one.path} ${one.count}`, one])).values()];

// Where the folder itself can't be listed, that is known of it; what is gone has nothing in it.
export async function lookBelow(path, at = path) {
  try {
    return seenBelow(await differsBelow(path, at));
  } catch (fault) {
    const isGone = fault.status === 404 && fault.body?.at;
    if (!isGone && !(fault.status === 403 && fault.body?.bits)) throw fault;
    return { nodes: [], unread: isGone ? [] : [{ path, count: 0 }] };
  }
}

export class Looking {
  // 'at' is the object that this is about. Where a folder above it is looked below, it has to be
  // told of by itself.
  constructor(at = '/') {
    this.at = at;
    this.resting = new Set();
    this.forget();
  }

  // Not to be called while it is busy.
  forget() {
    // For each folder that is looked below: {nodes, unread, all, isAsked}.
    this.walks = new Map();
    // Why it rests before all was looked at: {fault}, which is null if somebody stopped it.
    this.ended = null;
    this.began = Date.now();
  }

  get isOld() { return !this.isBusy && Date.now() - this.began > OLD; }

  // An object has this list now, and what follows it has another one too, as far as it was seen:
  // also the texts, since a question has those of one moment.
  changed(path, list) {
    for (const { nodes } of this.walks.values()) {
      const lists = new Map([[path, list]]);
      for (const node of nodes) {
        const above = lists.get(parentOf(node.path));
        if (node.path === path) Object.assign(node, { list, text: printList(list) });
        else if (above !== undefined && node.list !== null) {
          node.list = { ...node.list, entries: afterMoving(node.list, above, node.kind) };
          if (node.text !== FOLLOWS) node.text = printList(node.list);
          if (isFolder(node)) lists.set(node.path, node.list);
        }
      }
    }
  }

  get isBusy() {
    return this.ended === null && [...this.walks.values()].some(({ all }) => !all);
  }

  // What was seen below a folder: {nodes: [{path, kind, list, object, count}], unread: [{path,
  // count}], all}, from the top down. A list is null where it can't be read, and what has a 'count'
  // may stand for so many. 'unread' are the folders whose contents can't be listed and the objects
  // whose lists can't be read; 'all' is false until it was looked at, which begins by this.
  below(path) {
    if (!this.walks.has(path)) {
      this.walks.set(path, { nodes: [], unread: [], all: false, isAsked: false });
    }
    const { nodes, unread, all } = this.walks.get(path);
    return { nodes: [...nodes], unread, all };
  }

  async take(path, walk) {
    walk.isAsked = true;
    try {
      const { nodes, unread } = await lookBelow(path, this.at);
      Object.assign(walk, { nodes: nodes.sort(fromTop), all: true,
        unread: together(unread).sort((one, other) => (one.path < other.path ? -1 : 1)) });
    } catch (fault) {
      this.ended ??= { fault };
    }
    walk.isAsked = false;
    if (!this.isBusy) this.wake();
  }

  run() {
    if (this.ended !== null) return;
    for (const [path, walk] of this.walks) if (!walk.all && !walk.isAsked) this.take(path, walk);
  }

  wake() {
    for (const each of this.resting) each();
    this.resting.clear();
  }

  stop() {
    if (this.isBusy) this.ended = { fault: null };
    this.wake();
  }

  goOn() { this.ended = null; }

  // Waits until nothing is left to be looked at or it was stopped, or for this time.
  rests(time) {
    return new Promise((resolve) => {
      if (!this.isBusy) {
        resolve();
        return;
      }
      this.resting.add(resolve);
      setTimeout(() => {
        this.resting.delete(resolve);
        resolve();
      }, time);
    });
  }

  // Calls 'draw' soon, then again and again as long as it is busy and 'isWanted()', and at its end.
  async follow(draw, isWanted) {
    for (let time = SOON; ; time = LATER) {
      this.run();
      await this.rests(time);
      const { isBusy } = this;
      if (!isWanted()) return;
      await draw(isBusy);
      if (!isBusy && !this.isBusy) return;
    }
  }
}
