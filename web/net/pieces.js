// What the page reads of some objects and of the way to them, as a question has it.

import { objectAt } from './ancestors.js';
import { lookBelow } from './crawl.js';
import { FOLLOWS, OPEN, UNNAMED, imaginedIn } from '../acl/question.js';

const SO_MANY = 20;

// Folders on the way, as foldersAbove says them, each once and from the top down.
export const wayObjects = (...ways) => [...new Map(ways.flat().map((one) => [one.path, one]))
  .values()].sort((one, other) => one.path.length - other.path.length)
  .map(({ path, text, object }) => ({ path, kind: 'folder', text: text ?? OPEN, object }));

const isOwnFolder = ({ kind, text, path }) => kind === 'folder' && text !== FOLLOWS
  && text !== null && !path.includes(UNNAMED);

// With what is imagined in folders that have lists of their own, and in these folders.
export const withImagined = (objects, folders = []) => [...objects, ...objects.filter((one) =>
  isOwnFolder(one) || folders.includes(one.path)).flatMap(imaginedIn)];

// An object with all that lies below it, folders before what is in them: {object, nodes, unread}.
async function pieceOf({ path, kind }) {
  const [object, { nodes, unread }] = await Promise.all([objectAt(path, kind),
    kind === 'folder' ? lookBelow(path) : { nodes: [], unread: [] }]);
  const depth = (one) => one.path.split('/').length;
  return { object, unread, nodes: nodes.sort((one, other) => depth(one) - depth(other)) };
}

// The same of several. 'show' is told how far it is; fewer if somebody stopped that.
export async function readPieces(objects, show, isStopped) {
  const found = [];
  for (let at = 0; at < objects.length && !isStopped(); at += SO_MANY) {
    show(at, objects.length);
    found.push(...await Promise.all(objects.slice(at, at + SO_MANY).map(pieceOf)));
  }
  return found;
}
