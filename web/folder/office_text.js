// The text of a document of Word, Excel, PowerPoint or LibreOffice, without its looks. It is a ZIP
// with parts in XML, which are read here: no script of it runs, and nothing of it is fetched. What
// is wrong with it isn't told: there is no text.

// What one document may unpack to, with what it repeats; and blanks that it counts.
const MOST = 16 * 1048576;
const MOST_BLANKS = 1000;
const KINDS = {
  docx: /^word\/document\.xml$/, odt: /^content\.xml$/, ods: /^content\.xml$/,
  odp: /^content\.xml$/, xlsx: /^xl\/worksheets\/sheet(\d+)\.xml$/,
  pptx: /^ppt\/slides\/slide(\d+)\.xml$/,
};
const SHARED = 'xl/sharedStrings.xml';

const endingOf = (name) => name.slice(name.lastIndexOf('.') + 1).toLowerCase();
export const isOfOffice = (name) => Object.hasOwn(KINDS, endingOf(name));

// The parts of a ZIP by its list at the end: [{name, method, size, at}].
function partsOf(bytes) {
  const view = new DataView(bytes);
  let end = view.byteLength - 22;
  while (end >= 0 && view.getUint32(end, true) !== 0x06054b50) end -= 1;
  if (end < 0) throw new RangeError();
  const parts = [];
  let at = view.getUint32(end + 16, true);
  for (let left = view.getUint16(end + 10, true); left > 0; left -= 1) {
    const [name, extra, comment] = [28, 30, 32].map((of) => view.getUint16(at + of, true));
    parts.push({ name: new TextDecoder().decode(new Uint8Array(bytes, at + 46, name)),
      method: view.getUint16(at + 10, true), size: view.getUint32(at + 20, true),
      at: view.getUint32(at + 42, true) });
    at += 46 + name + extra + comment;
  }
  return parts;
}

// The bytes of a part, of which 'budget' counts what may still come.
async function* unpacked(bytes, { method, size, at }, budget) {
  const view = new DataView(bytes);
  const begin = at + 30 + view.getUint16(at + 26, true) + view.getUint16(at + 28, true);
  const packed = new Blob([new Uint8Array(bytes, begin, size)]).stream();
  // (what tests know of browsers is older than this)
  const { DecompressionStream } = /** @type {any} */ (window);
  const reader = (method === 0 ? packed
    : packed.pipeThrough(new DecompressionStream('deflate-raw'))).getReader();
  for (;;) {
    const { done, value } = await reader.read();
    if (done) return;
    budget.left -= value.length;
    if (budget.left < 0) throw new RangeError();
    yield value;
  }
}

async function xmlOf(bytes, part, budget) {
  const pieces = [];
  for await (const piece of unpacked(bytes, part, budget)) pieces.push(piece);
  const text = new TextDecoder().decode(await new Blob(pieces).arrayBuffer());
  const { documentElement: top } = new DOMParser().parseFromString(text, 'application/xml');
  if (top.querySelector('parsererror') || top.localName === 'parsererror') {
    throw new SyntaxError();
  }
  return top;
}

const BEHIND = { p: '\n', h: '\n', 'table-row': '\n', row: '\n', tr: '\n' };
const CELLS = { 'table-row': 'table-cell', row: 'c', tr: 'tc' };
const BREAKS = { tab: '\t', br: '\n', cr: '\n', 'line-break': '\n' };

// In Office's own kinds only elements of these names have text.
const TEXTS = ['t', 'v'];
const isOfWords = (node, isOpen) => isOpen || TEXTS.includes(node.localName);

// A document says by few bytes that a text stands there again, or a blank many times: that counts.
function repeated(text, budget) {
  budget.left -= text.length;
  if (budget.left < 0) throw new RangeError();
  return text;
}

// 'all' is {shared, isOpen, budget}: the texts of cells that have only a number of one, whether all
// that isn't an element is text, and what it may still come to.
function textIn(node, all) {
  const own = node.localName;
  if (Object.hasOwn(BREAKS, own)) return BREAKS[own];
  if (own === 's' && all.isOpen) {
    const count = Number(node.getAttribute('text:c') ?? 1) || 1;
    return repeated(' '.repeat(Math.min(count, MOST_BLANKS)), all.budget);
  }
  if (own === 'c' && node.getAttribute('t') === 's') {
    return repeated(all.shared[Number(node.textContent)] ?? '', all.budget);
  }
  if (own === 'f') return '';
  const within = (one) => textIn(one, all);
  const cell = Object.hasOwn(CELLS, own) ? CELLS[own] : null;
  const text = cell !== null ? [...node.children].filter(({ localName }) => localName === cell)
    .map((one) => within(one).trimEnd()).join('\t')
    : [...node.childNodes].map((one) => {
      if (one instanceof Element) return within(one);
      return one instanceof Text && isOfWords(node, all.isOpen) ? one.data : '';
    }).join('');
  return `${text}${BEHIND[own] ?? ''}`;
}

const numberOf = (name, pattern) => Number(pattern.exec(name)?.[1] ?? 0);

// The text, or null where it isn't such a document.
export async function textOfOffice(bytes, name) {
  const pattern = KINDS[endingOf(name)];
  try {
    const all = { shared: [], isOpen: endingOf(name).startsWith('o'), budget: { left: MOST } };
    const parts = partsOf(bytes);
    const found = parts.filter((one) => pattern.test(one.name)).sort((one, other) =>
      numberOf(one.name, pattern) - numberOf(other.name, pattern));
    const list = parts.find((one) => one.name === SHARED);
    if (list !== undefined) {
      const { children } = await xmlOf(bytes, list, all.budget);
      all.shared = [...children].map((one) => textIn(one, all));
    }
    const texts = [];
    for (const one of found) {
      const top = await xmlOf(bytes, one, all.budget);
      texts.push(textIn(all.isOpen
        ? [...top.children].find(({ localName }) => localName === 'body') : top, all));
    }
    return found.length === 0 ? null : texts.join('\n').replace(/\n{3,}/g, '\n\n').trim();
  } catch (fault) {
    if (fault instanceof RangeError || fault instanceof SyntaxError || fault instanceof TypeError) {
      return null;
    }
    throw fault;
  }
}
