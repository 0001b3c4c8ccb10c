// One entry of a list: its controls, or its words where it can't be changed.

import { element, freshId } from '../ui/dom.js';
import { SPECIAL, isGroup, isName, orderFlags, orderMask } from '../acl/entries.js';
import { texts } from '../language/language.js';
import { capital } from '../language/forms.js';
import {
  GROUPS, REACHES, coverageOf, faultWords, groupName, reachWords, rightWords, whoWords,
} from '../text/words.js';

const TYPES = { dacl: ['A', 'D'], sacl: ['U', 'L'] };
const OUTCOMES = ['F', 'S', 'SF', '']
  .map((flags) => [flags, texts.advanced.outcomes[flags || 'none']]);

// Replaces the flags of one set by others.
const exchange = (flags, set, others) =>
  orderFlags([...flags].filter((flag) => !set.includes(flag)).join('') + others);
const flagsOf = (entry, set) => [...set].filter((flag) => entry.flags.includes(flag)).join('');

function select(label, options, value, onPick) {
  const made = element('select', { 'aria-label': label },
    options.map(
      ([key, words]) => element('option', { value: key, selected: key === value }, words)));
  made.addEventListener('change', () => onPick(made.value));
  return made;
}

function typeControl(entry, which, changed) {
  const types = TYPES[which].map((type) => [type, texts.advanced.types[type]]);
  return select(texts.advanced.type, types, entry.type, (type) => {
    entry.type = type;
    changed();
  });
}

function whoControl(entry, changed) {
  const kinds = [['user', texts.advanced.user], ['group', texts.advanced.group],
    ...SPECIAL.map((who) => [who, capital(whoWords({ who, flags: '' }))])];
  const isSpecial = SPECIAL.includes(entry.who);
  const hint = element('p', { class: 'hint', id: freshId('who') });
  const name = element('input', {
    type: 'text', value: isSpecial ? '' : entry.who, 'aria-label': texts.acts.name,
    placeholder: texts.acts.name, autocomplete: 'off', autocapitalize: 'none', spellcheck: 'false',
    hidden: isSpecial, 'aria-describedby': hint.id,
  });
  const judge = () => {
    const fits = name.hidden || name.value === '' || isName(name.value);
    name.setAttribute('aria-invalid', String(!fits));
    hint.textContent = fits ? '' : faultWords('A3');
  };
  const now = isSpecial ? entry.who : isGroup(entry) ? 'group' : 'user';
  const kind = select(texts.advanced.who, kinds, now, (value) => {
    name.hidden = SPECIAL.includes(value);
    entry.who = name.hidden ? value : name.value;
    entry.flags = exchange(entry.flags, 'g', value === 'group' ? 'g' : '');
    judge();
    changed();
  });
  name.addEventListener('input', () => {
    entry.who = name.value;
    judge();
    changed();
  });
  judge();
  return element('div', { class: 'who' }, kind, name, hint);
}

function groupBox(group, entry, kind, changed) {
  const box = element('input', { type: 'checkbox' });
  box.addEventListener('change', () => {
    const own = group.letters + group.idle;
    const rest = [...entry.mask].filter((letter) => !own.includes(letter)).join('');
    entry.mask = orderMask(rest + (box.checked ? group.letters : ''));
    changed();
  });
  const show = () => {
    const extent = coverageOf(group, entry.mask);
    box.checked = extent === 'all';
    box.indeterminate = extent === 'some';
  };
  return { show, shown: element('label', { class: 'tick' }, box, groupName(group, kind)) };
}

function letterBox(letter, entry, kind, changed) {
  const box = element('input', { type: 'checkbox' });
  box.addEventListener('change', () => {
    const rest = [...entry.mask].filter((one) => one !== letter).join('');
    entry.mask = orderMask(rest + (box.checked ? letter : ''));
    changed();
  });
  const show = () => { box.checked = entry.mask.includes(letter); };
  const said = [element('code', {}, letter), rightWords(letter, kind)];
  return { show, shown: element('label', { class: 'tick' }, box, ...said) };
}

function singleRights(entry, kind, changed) {
  const boxes = [];
  const part = (legend, letters) => {
    const made = [...letters].map((letter) => letterBox(letter, entry, kind, changed));
    boxes.push(...made);
    return element('fieldset', {}, element('legend', {}, legend), made.map((box) => box.shown));
  };
  const parts = GROUPS.map((group) => part(groupName(group, kind), group.letters));
  parts.push(part(texts.advanced.kept, GROUPS.map((group) => group.idle).join('')));
  return { boxes, parts };
}

// The three groups with their letters, and single rights when they are opened.
function rightsControl(entry, kind, changed) {
  const letters = element('code', { class: 'letters' });
  const shows = [];
  const all = () => {
    letters.textContent = entry.mask === '' ? texts.advanced.noLetters : entry.mask;
    shows.forEach((show) => show());
  };
  const both = () => {
    all();
    changed();
  };
  const groups = GROUPS.map((group) => groupBox(group, entry, kind, both));
  // On a folder an entry also applies to what lies below.
  const { boxes, parts } = singleRights(entry, kind === 'folder' ? 'both' : kind, both);
  shows.push(...[...groups, ...boxes].map((one) => one.show));
  all();
  const heading = element('span', { class: 'unseen' }, texts.advanced.single);
  return element('div', { class: 'rights-of' },
    element('div', { class: 'groups', role: 'group', 'aria-label': texts.advanced.rights },
      groups.map((one) => one.shown)),
    element('details', {}, element('summary', {}, heading, letters), parts));
}

// Rarer ways to pass an entry on are offered only where it has them already.
function reachControl(entry, changed) {
  const now = flagsOf(entry, 'fdni');
  const rarer = REACHES.some(([flags]) => flags === now) ? [] : [[now, reachWords(entry)]];
  return select(texts.advanced.reach, [...REACHES, ...rarer], now, (flags) => {
    entry.flags = exchange(entry.flags, 'fdni', flags);
    changed();
  });
}

function outcomeControl(entry, changed) {
  return select(texts.advanced.records, OUTCOMES, flagsOf(entry, 'SF'), (flags) => {
    entry.flags = exchange(entry.flags, 'SF', flags);
    changed();
  });
}

// The cells of an entry that can be changed: [heading, content].
export function controls(entry, draft, changed) {
  return [
    [texts.advanced.type, typeControl(entry, draft.which, changed)],
    [texts.advanced.who, whoControl(entry, changed)],
    draft.which === 'sacl' ? [texts.advanced.records, outcomeControl(entry, changed)] : null,
    [texts.advanced.rights, rightsControl(entry, draft.kind, changed)],
    draft.kind === 'folder' ? [texts.advanced.reach, reachControl(entry, changed)] : null,
  ].filter((cell) => cell !== null);
}

function groupWords(mask, kind) {
  const words = GROUPS.map((group) => [groupName(group, kind), coverageOf(group, mask)])
    .filter(([, extent]) => extent !== 'none')
    .map(([name, extent]) => (extent === 'all' ? name : texts.advanced.inPart(name)));
  return words.join(', ') || texts.advanced.nothing;
}

// The same cells as words.
export function words(entry, draft) {
  const outcome = OUTCOMES.find(([flags]) => flags === flagsOf(entry, 'SF'))[1];
  return [
    [texts.advanced.type, texts.advanced.types[entry.type]],
    [texts.advanced.who, whoWords(entry)],
    draft.which === 'sacl' ? [texts.advanced.records, outcome] : null,
    [texts.advanced.rights, [`${groupWords(entry.mask, draft.kind)} `,
      element('code', { class: 'letters' }, entry.mask)]],
    draft.kind === 'folder' ? [texts.advanced.reach, reachWords(entry)] : null,
  ].filter((cell) => cell !== null);
}
