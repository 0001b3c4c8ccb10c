// Addresses: of what is asked of the room, and of the place that the page shows.

const VIEWS = ['show', 'access', 'rights', 'dacl', 'sacl', 'earlier', 'new'];

// No object is called so. A browser takes them out of what it asks for, also escaped, and goes up.
const isName = (word) => word !== '.' && word !== '..';

// A path is '/' alone, or a '/' before each name. In a target each name is percent-encoded. Targets
// are relative, so a room is asked below the address at which its page is served.
export function target(word, path) {
  const names = path.split('/').slice(1);
  if (!names.every(isName)) throw new RangeError();
  return `${word}/${names.map(encodeURIComponent).join('/')}`;
}

function decoded(name) {
  try {
    return decodeURIComponent(name);
  } catch {
    return name;
  }
}

// {path, view, night}; without a view the folder itself is shown, or a document by the view 'show'.
// 'night' is the one of the view 'earlier', or null.
export function whereIs(hash) {
  const [place, rest = ''] = hash.replace(/^#/, '').split('?');
  const [view, night = null] = rest.split('=');
  const names = place.split('/').map(decoded).join('/').split('/')
    .filter((name) => name !== '' && isName(name));
  return { path: `/${names.join('/')}`, view: VIEWS.includes(view) ? view : null, night };
}
