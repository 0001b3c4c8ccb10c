// What an upload has to send, and the lines that tell how far it is.

import * as api from '../net/api.js';
import { mostBytes } from '../net/large.js';
import { texts } from '../language/language.js';
import { element, icon, nameText } from '../ui/dom.js';
import { isolated, nameFault } from '../text/words.js';

// Some systems split an umlaut into a letter and dots. The normalized form is what people type.
export const normal = (name) => name.normalize('NFC');

// A document to be sent. 'state' is waits, runs, good or bad; 'words' say why it is bad, and
// 'again' whether another try may help. 'part' is how much of it was sent.
const newJob = (path, folder, file) => (
  { path: api.join(folder, path), name: path, file, state: 'waits', words: '', part: 0 });

export const faultOf = ({ name, file }) => (file.size > mostBytes()
  ? texts.faults.largeFile(mostBytes())
  : name.split('/').map(nameFault).find((fault) => fault !== null) ?? null);

function newLine(mark, name) {
  const bar = element('progress',
    { max: '100', value: '0', 'aria-label': texts.upload.of(name) });
  const state = element('span', { class: 'state' }, texts.upload.waits);
  const line = element('li', {}, icon(mark), nameText(name), bar, state);
  const show = (words, part, look) => {
    state.textContent = words;
    bar.value = 100 * part;
    bar.hidden = look === 'good' || look === 'bad';
    line.className = look;
  };
  return { line, show };
}

const WORDS = {
  waits: texts.upload.waits, runs: texts.upload.sent, good: texts.upload.uploaded,
};
// It may have got another name, beside the one that was there.
const wordsOf = ({ state, words, path, name }) => (state === 'good' && !path.endsWith(`/${name}`)
  ? texts.upload.uploadedAs(isolated(api.nameOf(path))) : WORDS[state] ?? words);

// A document of its own: {line, jobs, draw}.
export function documentLine(file, folder) {
  const job = newJob(normal(file.name), folder, file);
  const { line, show } = newLine('document', job.name);
  const draw = () => show(wordsOf(job), job.part, job.state);
  return { line, jobs: [job], draw };
}

const MOST_FAULTS = 20;

// The documents of a whole folder share a line, which counts them. What went wrong is listed below
// it, with 'faults' of its folders: {line, jobs, draw, tree, faults}.
export function treeLine(tree, folder) {
  const { line, show } = newLine('folder', normal(tree.name));
  const listed = element('ul', { class: 'faults' });
  line.append(listed);
  const jobs = tree.files.map(({ path, file }) => newJob(normal(path), folder, file));
  const faults = [];
  const draw = () => {
    const [good, bad] = ['good', 'bad'].map((state) => jobs.filter((job) => job.state === state));
    const ended = good.length + bad.length;
    const isWhole = good.length === jobs.length && faults.length === 0;
    const whole = jobs.length;
    if (ended < whole) show(texts.upload.ended(ended, whole), ended / whole, 'runs');
    else if (isWhole) show(texts.upload.uploadedWith(whole), 1, 'good');
    else show(texts.upload.uploadedSome(good.length, whole), 1, 'bad');
    const told = [...faults, ...bad].map(({ name, words }) =>
      element('li', {}, nameText(name), `: ${words}`));
    const more = told.length - MOST_FAULTS;
    listed.replaceChildren(...told.slice(0, MOST_FAULTS),
      ...(more > 0 ? [element('li', {}, texts.upload.more(more))] : []));
  };
  return { line, jobs, draw, tree, faults };
}
