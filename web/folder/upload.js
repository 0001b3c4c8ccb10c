// Documents and whole folders sent into a folder, each with its progress.

import { endsAll, interruptionsSeen, isUnanswered } from '../net/retry.js';
import * as api from '../net/api.js';
import { texts } from '../language/language.js';
import { button } from '../ui/dom.js';
import { forgetPieces } from '../net/in_pieces.js';
import { DOCUMENT_OF_ROOM } from '../net/large.js';
import { documentLine, faultOf, normal, treeLine } from './jobs.js';
import { tell, tellFault } from '../ui/messages.js';
import { newPanel } from '../ui/panel.js';
import { asWork } from '../ui/working.js';
import { askingInTurn, freeBeside } from './replacing.js';
import { hasSame, putSafely, tagNow, tagSeen } from './safe_put.js';
import { nameFault, placeWords, sentenceOf } from '../text/words.js';

// The room answers one request after the other, so more at once would not be quicker.
const AT_ONCE = 3;

// Why a folder can't be made, or null. One that is there already is taken as it is.
async function makeOne(path, folder) {
  const fault = path.split('/').map(nameFault).find((one) => one !== null);
  if (fault) return fault;
  try {
    await api.makeFolder(api.join(folder, path));
    return null;
  } catch (refusal) {
    if (endsAll(refusal)) throw refusal;
    return refusal.body?.why === 'exists' ? null : sentenceOf(refusal);
  }
}

// Whether the room has what was sent. Where I may not know that, nothing speaks against it.
async function isKept({ path, file, made }) {
  try {
    return await api.isThere(path) && (made || await hasSame({ path, file }));
  } catch (fault) {
    if (isUnanswered(fault)) throw fault;
    return true;
  }
}

const LEFT = { state: 'bad', words: texts.upload.left };

// What a request that failed is told as. nginx lets only so many through.
const wordsOf = (refusal) => (refusal.status === 429 && !refusal.body?.why
  ? texts.upload.tooMuch : sentenceOf(refusal));

class Upload {
  constructor(files, trees, folder) {
    this.folder = folder;
    this.onEnd = () => {};
    this.onSome = () => {};
    this.lines = [...files.map((file) => documentLine(file, folder)),
      ...trees.map((tree) => treeLine(tree, folder))];
    this.jobs = this.lines.flatMap(({ jobs }) => jobs);
    this.lineOf = new Map(this.lines.flatMap((line) => line.jobs.map((job) => [job, line])));
    this.ask = askingInTurn(this.jobs.length);
    /** @type {Promise<any>} */
    this.large = Promise.resolve();
    this.close = button(texts.acts.close, () => this.leave(), { class: 'small', hidden: true });
    this.again = button(texts.acts.tryAgain, () => asWork(this.run()),
      { class: 'small', hidden: true });
    this.stop = button(texts.acts.stop, () => this.halt(), { class: 'small', hidden: true });
    this.panel = newPanel(texts.upload.title, texts.upload.to(placeWords(folder)), this.stop,
      this.again, this.close);
    this.panel.rows.append(...this.lines.map(({ line }) => line));
  }

  leave() {
    forgetPieces(this.jobs.map(({ file }) => file));
    this.panel.remove();
  }

  withState(...states) {
    return this.jobs.filter(({ state }) => states.includes(state));
  }

  set(job, changes) {
    Object.assign(job, changes);
    this.lineOf.get(job).draw();
    this.panel.show(this.withState('good', 'bad').length, this.jobs.length);
  }

  // Makes the folders of a tree, from the top down. What is in one that can't be made isn't sent.
  async makeFolders({ tree, jobs, faults, draw }) {
    faults.length = 0;
    const isIn = (path, above) => path.startsWith(`${above}/`);
    for (const name of tree.folders.map(normal)) {
      if (this.isStopped) return;
      if (faults.some((above) => isIn(name, above.name))) continue;
      const words = await makeOne(name, this.folder);
      if (words !== null) faults.push({ name, words });
    }
    const lacks = ({ name, state }) =>
      state === 'waits' && faults.some((above) => isIn(name, above.name));
    for (const job of jobs.filter(lacks)) {
      this.set(job, { state: 'bad', words: texts.upload.noFolder, again: true });
    }
    draw();
  }

  // Asks about a document of that name that is there. Where somebody changed what this browser gave
  // out, only that is asked, when it is sent. Returns whether it is to be sent.
  async mayReplace(job) {
    const [seen, now] = [await tagSeen(job.path), await tagNow(job.path)];
    job.seen = seen;
    job.isThere = now !== null && now !== seen;
    if (job.isThere) return true;
    const answer = await this.ask({ name: job.name, path: job.path, why: 'exists' });
    if (answer === 'both') job.path = await freeBeside(job.path);
    job.isThere = answer === 'replace';
    return answer !== 'leave';
  }

  async sendOne(job) {
    const fault = faultOf(job);
    if (fault) return this.set(job, { state: 'bad', words: fault });
    if (!job.allowed && await api.isThere(job.path) && !(await this.mayReplace(job))) {
      return this.set(job, LEFT);
    }
    this.set(job, { state: 'runs', allowed: true });
    const made = await this.afterLarge(job, () =>
      putSafely(job, job.isThere === true, this.ask, (sent, whole) =>
        this.set(job, { part: whole === 0 ? 1 : sent / whole }), this.stopping.signal));
    this.set(job, made === null ? LEFT : { state: 'good', made });
    return this.onSome();
  }

  // Large ones go one after the other: the door takes one of a user, and has four.
  async afterLarge({ path, file }, send) {
    if (file.size <= DOCUMENT_OF_ROOM) return send();
    const before = this.large;
    const sent = before.then(() => {
      if (!this.isStopped) return send();
      throw new api.Refusal(api.STOPPED, null, { method: 'PUT', word: 'doc', path });
    });
    this.large = sent.catch(() => {});
    return sent;
  }

  // The rest isn't sent, and can be later.
  halt() {
    this.isStopped = true;
    this.stopping.abort();
    this.stop.hidden = true;
    this.cut(this.queue ?? []);
  }

  cut(queue) {
    this.isCut = true;
    for (const job of queue.splice(0)) {
      this.set(job, { state: 'bad', words: texts.upload.notSent, again: true });
    }
  }

  async sendInTurn(queue) {
    for (let job = queue.shift(); job; job = queue.shift()) {
      try {
        await this.sendOne(job);
      } catch (refusal) {
        const isHere = refusal.status === api.STOPPED;
        this.set(job, { state: 'bad', again: true,
          words: isHere ? texts.upload.notSent : wordsOf(refusal) });
        if (refusal.status === 401) tellFault(refusal);
        if (endsAll(refusal)) this.cut(queue);
      }
    }
  }

  // An interrupted room may have been set back to an earlier copy, without what it had taken.
  async lookAgain() {
    const lost = [];
    try {
      for (const job of this.withState('good')) if (!(await isKept(job))) lost.push(job);
    } catch {
      return; // It doesn't answer once more: this is looked at after the next try.
    }
    this.interrupted = false;
    for (const job of lost) {
      this.set(job, { state: 'bad', again: true, part: 0, words: texts.upload.lost });
    }
    if (lost.length > 0) tell('bad', texts.upload.interrupted(lost.length));
  }

  // Sends what wasn't sent yet, or failed and may be tried again.
  async run() {
    this.again.hidden = this.close.hidden = true;
    this.stop.hidden = this.isStopped = false;
    this.stopping = new AbortController();
    for (const job of this.withState('bad').filter(({ again }) => again)) {
      this.set(job, { state: 'waits', words: '', part: 0, again: false });
    }
    const seen = interruptionsSeen();
    this.isCut = false;
    try {
      for (const line of this.lines) if (line.tree) await this.makeFolders(line);
    } catch (refusal) {
      tellFault(refusal);
      this.cut(this.withState('waits'));
    }
    this.queue = this.withState('waits');
    if (this.isStopped) this.cut(this.queue);
    await Promise.all(Array.from({ length: AT_ONCE }, () => this.sendInTurn(this.queue)));
    this.interrupted ||= interruptionsSeen() !== seen;
    if (this.interrupted && !this.isCut) await this.lookAgain();
    this.end();
  }

  endWords(isWhole, bad) {
    const all = this.jobs.length;
    if (isWhole) return texts.upload.done(all);
    return this.isStopped ? texts.upload.stopped(all - bad, all) : texts.upload.failed(bad, all);
  }

  end() {
    const bad = this.withState('bad');
    const whole = bad.length === 0 && this.lines.every(({ faults = [] }) => faults.length === 0);
    this.panel.show(this.jobs.length, this.jobs.length);
    this.panel.say(this.endWords(whole, bad.length), !whole);
    this.stop.hidden = true;
    this.again.hidden = !bad.some(({ again }) => again);
    this.close.hidden = false;
    if (whole) this.panel.leave();
    this.onEnd();
  }
}

// Sends files and trees into the folder. The progress is shown beside whatever is open meanwhile.
// 'onEnd' is called when all have ended, and again after each further try, and 'onSome' when one
// has arrived.
export async function uploadAll(files, trees, folder, onEnd, onSome) {
  const upload = new Upload(files, trees, folder);
  Object.assign(upload, { onEnd, onSome });
  await asWork(upload.run());
}

// Sends a file, whatever its name is, in the place of a document, which was chosen for that and of
// which the tag 'seen' was seen.
export async function replaceBy(file, path, seen, onEnd) {
  const upload = new Upload([new File([file], api.nameOf(path))], [], api.parentOf(path));
  Object.assign(upload.jobs[0], { path, seen, allowed: true, isThere: true });
  upload.onEnd = onEnd;
  await asWork(upload.run());
}
