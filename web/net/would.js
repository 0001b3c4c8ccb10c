// What would come of a change, as the program says it (docs/would.md). Nothing is added to what was
// read: the answer follows from the question.
//
//   const said = await foresee({ objects, changes, known, me });
//
// 'objects' and 'changes' are as acl/question.js has them, and 'known' is what people() says.
// Without changes it is what each may do now. It is a Said of acl/answer.js, whose 'asked.most'
// says how many groups together were asked for; 'then' are the lists that come of it, by path, if
// 'then' is asked for. Whom the objects 'beside' name is asked for too, so that answers of several
// questions are about the same callers. It fails with a Refusal, also where there is no answer:
// then nothing is known.

import { Refusal, jsonOrNull } from './api.js';
import { untilAnswered } from './retry.js';
import { Said } from '../acl/answer.js';
import { partiesFor, namesIn } from '../acl/callers.js';
import { readListText } from '../acl/entries.js';
import { FOLLOWS, markFor, questionOf } from '../acl/question.js';

// What nginx and the door take, and what the program works out.
const MOST_BYTES = 1048576;
const MOST_TURNS = 4000000;
const ASKED = { method: 'POST', word: 'would', path: '/' };
// The status of a question that is too large to be sent.
const TOO_LARGE = 413;

async function askOnce(body) {
  const lost = () => { throw new Refusal(0, null, ASKED); };
  const reply = await fetch('door/would', { method: 'POST', cache: 'no-store', body }).catch(lost);
  if (!reply.ok) {
    throw new Refusal(reply.status, jsonOrNull(await reply.text().catch(() => '')), ASKED);
  }
  return reply.json().catch(lost);
}

// The answer follows from the question alone, so the last ones are kept.
const MOST_KEPT = 12;
const kept = new Map();

// {rows, lists} of a question. It may be asked twice.
export function would(question) {
  if (!kept.has(question)) {
    const asked = untilAnswered(() => askOnce(question));
    asked.catch(() => kept.delete(question));
    kept.set(question, asked);
    if (kept.size > MOST_KEPT) kept.delete(kept.keys().next().value);
  }
  return kept.get(question);
}

const sizeOf = (text) => new TextEncoder().encode(text).length;
// Owners are asked for too, another name, and whoever has none.
const isTooMuch = ({ all }, objects, texts) =>
  (all.length + new Set(objects.map(({ object }) => object?.owner)).size + 2) * objects.length
    > MOST_TURNS || texts.some((one) => sizeOf(one) > MOST_BYTES);

// The lists of these that can be read, each once.
const listsIn = (objects) => [...new Set(objects.map(({ text }) => text))]
  .filter((text) => text && text !== FOLLOWS).map((text) => readListText(text).list)
  .filter(Boolean);

// What stands for all that only follow a folder: what changes for it has both states in its row.
const isAlike = ({ path }) => /\u0000\d*(\/|$)/.test(path);

// The questions, with as many groups together as fit: {asked, texts}.
function written({ objects, changes, beside, known, me, then }, mark) {
  const all = [...objects, ...changes];
  const named = [...all, ...beside];
  const names = namesIn(listsIn(named), named.flatMap(({ object }) => object ?? []));
  for (let most = 3; most >= 0; most -= 1) {
    const asked = partiesFor(names, known, me, most);
    const look = (those) => questionOf(those, [{ look: '/' }], asked, { mark });
    const texts = changes.length === 0 ? [look(objects)]
      : [look(objects.filter((one) => !isAlike(one))),
        questionOf(objects, changes, asked, { mark, lists: then })];
    if (!isTooMuch(asked, all, texts)) return { asked, texts };
    // Of those who are known there is no smaller question.
    if (asked.isExact) break;
  }
  throw new Refusal(TOO_LARGE, null, ASKED);
}

// Where what then stands at a path stood before, or null of what comes.
function cameFrom(changes) {
  const isIn = (path, folder) => path === folder || path.startsWith(`${folder}/`);
  const steps = changes.filter((one) => one.move || one.come).reverse();
  return (path) => steps.reduce((at, { move, to, come }) => {
    if (at === null || (come && isIn(at, come))) return null;
    return move && isIn(at, to) ? `${move}${at.slice(to.length)}` : at;
  }, path);
}

// What stands at a path then.
function kindsOf(objects, changes, from) {
  const kinds = new Map(objects.map(({ path, kind }) => [path, kind]));
  const coming = new Map(changes.filter(({ come }) => come).map(({ come, kind }) => [come, kind]));
  return (path) => coming.get(path) ?? kinds.get(from(path) ?? path);
}

/** @param {any} given */
export async function foresee(given) {
  const { objects, changes = [] } = given;
  const all = { beside: [], known: null, me: '', then: false, ...given, changes };
  const mark = markFor([...objects.map(({ path }) => path),
    ...changes.flatMap(({ set, move, to, come, look }) => [set, move, to, come, look])]
    .filter(Boolean).map((path) => path.replaceAll(/\u0000[^/]*/g, '')));
  const { asked, texts } = written(all, mark);
  const [looked, told = null] = await Promise.all(texts.map(would));
  const from = cameFrom(changes);
  const said = new Said(asked, looked.rows, told && told.rows,
    { mark, cameFrom: from, kindAt: kindsOf(objects, changes, from) });
  return Object.assign(said, { then: new Map(told?.lists ?? []) });
}
