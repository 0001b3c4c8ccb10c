// A list of an object: as a table and as text, and what is done with it.

import * as api from '../net/api.js';
import { announce } from '../ui/announce.js';
import { button, element } from '../ui/dom.js';
import { Draft } from '../acl/draft.js';
import { texts } from '../language/language.js';
import { sendList } from './send_list.js';
import { notShown, tell, tellFault, waitFor } from '../ui/messages.js';
import { pickReady } from '../share/pick_list.js';
import { drawTable } from './table.js';
import { tabs } from '../ui/tabs.js';
import { drawText } from './list_text.js';
import { faultWords, sentenceOf } from '../text/words.js';

const INTRODUCTIONS = { dacl: texts.advanced.decides, sacl: texts.advanced.recording };

async function mayChange(path) {
  const rulings = await api.can(path, 'C').catch(() => null);
  return rulings?.C.ruling === 'allowed';
}

// The table and the text in their tabs.
function panes(draft) {
  const [table, text] = [texts.advanced.table, texts.advanced.text];
  let shown = table;
  let showTextFault = null;
  const { strip, panel, show } = tabs([table, text], texts.advanced.ways, (name, body) => {
    shown = name;
    if (name === text) showTextFault = drawText(draft, body);
    else drawTable(draft, body);
  });
  const showFault = () => {
    if (shown === table && draft.faultPlace() >= 0) {
      drawTable(draft, panel);
      announce('bad', faultWords(draft.fault.code));
    } else {
      show(text);
      showTextFault(true);
    }
  };
  show(shown);
  return { strip, panel, showFault, redraw: () => show(shown) };
}

// Sends the list, and shows at its place what the room finds wrong with it.
async function deliver(draft, both) {
  try {
    const done = await sendList(draft);
    if (done === 'sent') tell('good', texts.advanced.sent);
    if (done) both.redraw();
  } catch (fault) {
    if (fault.status !== 422) tellFault(fault);
    else {
      draft.setRoomFault(fault.body);
      both.showFault();
    }
  }
}

// What can be done with unsent changes, as long as there are any.
function changesBar(draft, both) {
  const told = element('p', { class: 'unseen', role: 'status' });
  const send = button(texts.advanced.review, async () => {
    send.disabled = true;
    await deliver(draft, both);
    send.disabled = false;
  }, { class: 'primary' });
  const drop = button(texts.advanced.drop, () => {
    draft.setText(draft.base);
    both.redraw();
  });
  const hint = element('span', { class: 'hint' }, texts.advanced.unsent);
  const bar = element('div', { class: 'send' }, hint, drop, send);
  draft.onChange = () => {
    bar.hidden = !draft.isChanged;
    const isTold = told.textContent !== '';
    if (draft.isChanged !== isTold) {
      told.textContent = draft.isChanged ? texts.advanced.unsent : '';
    }
  };
  draft.onChange();
  return [told, bar];
}

// The ready-made lists are for folders. At the top of the room one would shut out everybody else.
function readyButton(draft, both) {
  const isFor = draft.which === 'dacl' && draft.kind === 'folder' && draft.path !== '/';
  if (!isFor || !draft.mayChange) return [];
  const pick = async () => {
    try {
      const text = await pickReady(await waitFor(api.whoAmI()));
      if (text === null) return;
      draft.setText(text);
      both.redraw();
    } catch (fault) {
      tellFault(fault);
    }
  };
  return [button(texts.advanced.ready, pick, { class: 'small' })];
}

export async function showList(path, which, kind, box, isCurrent) {
  try {
    const [base, may] = await waitFor(Promise.all([api.readList(which, path), mayChange(path)]));
    if (!isCurrent()) return;
    const draft = Draft.of(path, which, kind, base);
    draft.mayChange = may;
    const both = panes(draft);
    const note = may ? null
      : element('p', { class: 'hint' }, texts.advanced.mayOnlyLook);
    const lead = element('div', { class: 'lead' }, element('p', {}, INTRODUCTIONS[which]),
      readyButton(draft, both));
    box.replaceChildren(lead, ...[note].filter(Boolean), both.strip, both.panel,
      ...changesBar(draft, both));
  } catch (fault) {
    if (!isCurrent()) return;
    const again = () => showList(path, which, kind, box, isCurrent);
    box.replaceChildren(fault.status === 403 ? element('p', { class: 'empty' }, sentenceOf(fault))
      : notShown(sentenceOf(fault), again));
    if (fault.status === 401 || fault.status === undefined) tellFault(fault);
  }
}
