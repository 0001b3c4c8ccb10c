// In which language the page speaks: the one that was chosen in this browser, or else the first one
// of the browser's own that there is. A choice counts once the page is loaded again.

const LOADS = {
  en: () => import('./en.js').then(({ EN }) => EN),
  de: () => import('./de.js').then(({ DE }) => DE),
  fr: () => import('./fr.js').then(({ FR }) => FR),
};
// Each in its own words.
export const LANGUAGES = { en: 'English', de: 'Deutsch', fr: 'Français' };
const KEY = 'rooms language';
const isThere = (language) => Object.hasOwn(LANGUAGES, language);

function chosen() {
  try {
    return localStorage.getItem(KEY);
  } catch {
    // The browser keeps nothing, or there is none.
    return null;
  }
}

function ofBrowser() {
  const wanted = typeof navigator === 'undefined' ? [] : navigator.languages ?? [];
  return wanted.map((one) => one.split('-')[0].toLowerCase()).find(isThere);
}

const choice = chosen();
export const language = isThere(choice) ? choice : ofBrowser() ?? 'en';

export function chooseLanguage(next) {
  try {
    localStorage.setItem(KEY, next);
  } catch {
    // The browser keeps nothing.
  }
}

/** @type {Awaited<ReturnType<typeof LOADS['en']>>} */
export const texts = await LOADS[language]();
