// Plays dialogs of the page by node, over a room that is served: what they say, and then what they
// send. Each is a function of (play, tree), which returns {path, kind, text, lines, questions}, or
// null where nothing is offered or sent.
import { showPage } from './elements.mjs';
import { namesIn, plain } from './said.mjs';
import { GROUPS, USERS } from './trees.mjs';

const body = showPage();
const PATIENCE = 60000;
export const ME = 'alice';

const pause = (time) => new Promise((done) => { setTimeout(done, time); });
export async function until(holds, what) {
  for (const end = Date.now() + PATIENCE; ; await pause(5)) {
    const found = holds();
    if (found) return found;
    if (Date.now() > end) throw new Error(`no ${what}: ${plain(body.textContent).slice(0, 600)}`);
  }
}

function change(menu, value) {
  menu.value = value;
  menu.dispatchEvent(new Event('change'));
}

// A sentence of a line, and all names that it is about, also where it only counts some.
function lineOf(li) {
  const [first, ...more] = li.querySelector('div').children;
  const text = plain(first.textContent);
  const all = more.find((one) => one.tagName === 'DETAILS'
    && /^All /.test(one.querySelector('summary').textContent));
  const names = all ? plain(all.querySelector('p').textContent)
    : /^[^:]*: (.*?) – /.exec(text)?.[1] ?? '';
  return { text, names: namesIn(names) };
}

export const shownIn = (box, path, kind) => ({ path, kind,
  text: plain(box.innerText).replace(/\n\s*/g, '\n'),
  lines: box.querySelectorAll('.changes li').map(lineOf) });

export const dialogNow = () => body.querySelectorAll('dialog').at(-1);
const noticesNow = () => body.querySelector('#notices').children;

export class Play {
  // 'module' brings a module of the page, 'chance' says what is pressed, and 'served' is the room.
  constructor(module, chance, served) {
    Object.assign(this, { module, chance, served });
  }

  // What was asked of the program until now.
  asked() { return this.served.questions.splice(0); }

  // The panel of an object, once it is drawn. It isn't drawn anew: 'isOld' says that it would be.
  async panel(path, kind) {
    const { showAccess } = await this.module('share.js');
    const box = document.createElement('div');
    body.append(box);
    let draws = 0;
    await showAccess(path, kind, box, () => {
      draws += 1;
      box.isOld = draws > 1;
      return !box.isOld;
    });
    return box;
  }

  // What a question says, and then its last button is pressed; null where it says that nothing is
  // sent. 'box' has it, or else it is a dialog.
  async confirmed(path, kind, box = null) {
    const shown = await until(() => box ?? dialogNow() ?? noticesNow().length > 0, 'question');
    if (shown === true) return null;
    const press = () => shown.querySelectorAll('.actions button').at(-1);
    await until(() => shown.querySelector('.outcome') && !shown.querySelector('[aria-busy=true]')
      && !press().disabled, 'answer');
    const said = { ...shownIn(shown, path, kind), questions: this.asked(),
      isTakenBack: this.takesBack(shown) };
    if (press().className === 'danger' && shown.querySelector('.lock-out')) return null;
    press().click();
    return said;
  }

  // Whether what is kept further down is taken back too: as often as not.
  takesBack(shown) {
    const box = shown.querySelectorAll('.way').find(({ textContent }) =>
      textContent.includes('what is kept there'))?.querySelector('input');
    if (box?.checked && this.chance.is(50)) box.click();
    return box?.checked === true;
  }

  // Until what was sent is done. What wasn't is told, and isn't judged.
  async done(said) {
    await until(() => !body.classList.contains('waiting'), 'end');
    await pause(1);
    await until(() => !body.classList.contains('waiting') && !dialogNow(), 'end');
    const bad = body.querySelectorAll('.notice.bad').map((one) => plain(one.textContent));
    return bad.length === 0 ? said : { ...said, bad };
  }

  clear() {
    this.asked();
    // The next one waits until it is closed.
    for (const one of body.querySelectorAll('dialog')) one.close();
    for (const one of body.children.filter(({ id }) => id === '')) one.remove();
    for (const one of [...noticesNow()]) one.remove();
  }

  pickIn(box, who) {
    const input = box.querySelector('.picker input');
    input.value = who;
    input.dispatchEvent(new Event('input'));
    const found = box.querySelectorAll('[role=option]').find((one) =>
      one.querySelector('.name').textContent === who && !one.classList.contains('unsure'));
    found?.dispatchEvent(new Event('pointerdown', { cancelable: true }));
    return found !== undefined;
  }

  async shared(path, kind, count) {
    const box = await this.panel(path, kind);
    const adding = box.querySelector('.adding');
    if (!adding) return null;
    const names = this.chance.mixed([...USERS.slice(1), ...Object.keys(GROUPS)]);
    let picked = 0;
    for (const who of names) if (picked < count && this.pickIn(adding, who)) picked += 1;
    if (picked === 0) return null;
    const menu = adding.querySelector('.picked select');
    change(menu, this.chance.pick(menu.options).value);
    // What can't be said by levels stays so.
    await until(() => adding.querySelector('.outcome[aria-busy=false]')
      || adding.textContent.includes('can’t be said'), 'what comes of it');
    if (!adding.querySelector('.outcome')) return null;
    const said = await this.confirmed(path, kind, adding);
    if (said) await until(() => box.isOld, 'the panel anew');
    return said && this.done(said);
  }
}

// ---- the dialogs

const isFolder = ({ kind }) => kind === 'folder';
const folders = (tree) => tree.filter(isFolder);
// Objects in the order in which they are tried, and what the first of them gives.
export async function firstOf(play, tree, does) {
  for (const one of play.chance.mixed(tree).slice(0, 8)) {
    const found = await does(one);
    if (found !== null) return found;
    play.clear();
  }
  return null;
}

const sharing = (count) => (play, tree) => firstOf(play, tree, ({ path, kind }) =>
  play.shared(path, kind, count(play)));

// What follows its folder has no lines of its own.
const withLists = (tree) => tree.filter(({ list }) => list !== null);

// What is chosen in the menu of a line.
const ofLine = (isGone) => (play, tree) => firstOf(play, withLists(tree), async (one) => {
  const { path, kind } = one;
  const box = await play.panel(path, kind);
  const menus = box.querySelectorAll('.holders select').flatMap((menu) => menu.options
    .filter(({ value }) => value !== menu.value && (value === 'gone') === isGone)
    .map(({ value }) => [menu, value]));
  if (menus.length === 0) return null;
  change(...play.chance.pick(menus));
  const said = await play.confirmed(path, kind);
  return said && play.done(said);
});

// The box 'Only these people', turned on or off.
const following = (isCut) => (play, tree) => firstOf(play, tree.filter(({ list }) =>
  /^list:a?p/.test(list) !== isCut), async ({ path, kind }) => {
  const box = (await play.panel(path, kind)).querySelector('.following input');
  if (!box || box.disabled || box.checked === isCut) return null;
  box.click();
  const dialog = await until(() => dialogNow() ?? noticesNow().length > 0, 'question');
  const ticks = dialog === true ? [] : dialog.querySelectorAll('.whom input');
  // Where nobody can be left out, nothing changes.
  if (isCut && ticks.length < 2 && play.chance.is(90)) return null;
  if (ticks.length > 0) play.chance.pick(ticks).click();
  // What can't be said by levels isn't ticked.
  if (ticks.length > 1 && !ticks.some(({ checked }) => checked)) return null;
  const said = await play.confirmed(path, kind);
  return said && play.done(said);
});

// What is asked before a move, which is then made.
async function moved(play, tree, nameOf) {
  const { accepted } = await play.module('move.js');
  return firstOf(play, tree.slice(1), async ({ path, kind }) => {
    const isIn = (folder) => folder === path || folder.startsWith(`${path}/`);
    const into = play.chance.pick(tree.filter((one) => isFolder(one) && !isIn(one.path)
      && one.path !== path.slice(0, path.lastIndexOf('/'))));
    if (into === undefined) return null;
    const [to, name] = [into.path, nameOf(path)];
    const going = accepted([{ path, kind }], to);
    const dialog = await Promise.race([going.then(() => null), until(() => dialogNow(), 'answer')]);
    const said = { ...dialog === null ? { path: `${to}/${name}`, kind, text: '', lines: [] }
      : shownIn(dialog, `${to}/${name}`, kind), questions: play.asked(),
    warnings: dialog?.querySelectorAll('.warnings li').map((li) => plain(li.textContent)) ?? [] };
    dialog?.querySelectorAll('.actions button').at(-1).click();
    if (!await going) return null;
    const { status } = await play.served.ask(ME, 'POST', `/door/move${path}`,
      JSON.stringify({ to: `${to}/${name}` }));
    return status < 300 ? { ...said, moved: [{ from: path, to: `${to}/${name}` }] } : null;
  });
}

// What one of these persons can do in a folder and below it, once it is said.
async function ofPerson(play, { path, kind }, persons) {
  if (persons.length === 0) return null;
  const box = (await play.panel(path, kind)).querySelector('.one-person');
  if (!box) return null;
  const who = play.chance.pick(persons);
  play.pickIn(box, who);
  await until(() => box.querySelector('.exceptions p'), 'what they can do');
  return { box, who };
}

// A line of it: a place, what they can do there, and if in which groups.
const LOOK = /^(\/[^ ]*?)((?:can|no|custom|what).*?)(?: \(if in (.*)\))?$/;

const looked = (play, tree) => firstOf(play, folders(tree), async (one) => {
  const found = await ofPerson(play, one, USERS.slice(1));
  if (found === null) return null;
  const lines = found.box.querySelectorAll('.exceptions li').map((li) => plain(li.textContent));
  return { ...one, questions: play.asked(), text: plain(found.box.innerText), lines: [],
    looks: { who: found.who, lines: lines.map((text) => {
      const [, path, words, groups = ''] = LOOK.exec(text);
      return { path, words, groups: groups.split(/, | and /).filter(Boolean) };
    }) } };
});

// Those to whom lists of a folder and below it give something, as often as they do.
const namedIn = (tree, folder) => tree
  .filter(({ path }) => `${path}/`.startsWith(`${folder.path}/`))
  .flatMap(({ list }) => USERS.slice(1).filter((who) => list?.includes(`:${who}:`)));

const pressed = (words, does) => (play, tree) => firstOf(play, folders(tree), async (one) => {
  const found = await ofPerson(play, one, namedIn(tree, one));
  const press = found?.box.querySelectorAll('.actions button')
    .find((each) => each.textContent === words);
  if (!press) return null;
  press.click();
  const dialog = await until(dialogNow, 'dialog');
  await does(play, dialog, found.who);
  for (const tick of dialog.querySelectorAll('.whom input')) if (play.chance.is(25)) tick.click();
  if (!dialog.querySelectorAll('.whom input').some(({ checked }) => checked)) return null;
  const said = await play.confirmed(one.path, one.kind);
  return said && play.done(said);
});

function standsIn(play, dialog, who) {
  play.pickIn(dialog, play.chance.pick(USERS.slice(1).filter((one) => one !== who)));
  change(dialog.querySelector('[type=date]'), '2999-05-31');
}

export const DIALOGS = {
  look: looked,
  out: pressed('Take out everywhere', () => {}),
  stand: pressed('Let somebody stand in', standsIn),
  share: sharing(() => 1),
  several: sharing((play) => 2 + play.chance.random(2)),
  level: ofLine(false),
  off: ofLine(true),
  only: following(true),
  again: following(false),
  move: (play, tree) => moved(play, tree, (path) => path.slice(path.lastIndexOf('/') + 1)),
  rename: (play, tree) => moved(play, tree, () => 'renamed'),
};
