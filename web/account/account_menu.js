// What a user does with the own account: a password, and the language of the page.

import { LANGUAGES, chooseLanguage, language, texts } from '../language/language.js';
import { menuButton } from '../ui/menu.js';
import { button, element } from '../ui/dom.js';
import { showDialog, tellFault } from '../ui/messages.js';
import { changePassword } from './own_password.js';

// The page is made anew in the other language. It asks first where something would be lost.
function speak(next) {
  if (next === language) return;
  chooseLanguage(next);
  location.reload();
}

const languages = Object.entries(LANGUAGES).map(([name, words]) => (
  { words, lang: name, isChosen: name === language, does: () => speak(name) }));

const help = () => showDialog(texts.help.title, (finish) => [
  element('dl', { class: 'help' }, texts.help.lines.flatMap(([what, how]) =>
    [element('dt', {}, what), element('dd', {}, how)])),
  element('div', { class: 'actions' }, button(texts.acts.close, () => finish(null),
    { class: 'primary', autofocus: true }))]);

export const accountMenu = (user) => menuButton(texts.account.menu, [
  { words: texts.help.title, does: () => help() },
  { words: texts.account.change, does: () => changePassword(user).catch(tellFault) },
  ...languages,
], { class: 'plain' });
