// The literals of a module, and which of them are texts for people.

// Where the next sign of code is to be looked at, past a comment or a pattern, or null.
function skipped(source, at) {
  if (source.startsWith('//', at) && source[at - 1] !== ':') return endOf(source, '\n', at) - 1;
  if (source.startsWith('/**', at)) return endOf(source, '*/', at) + 1;
  return source[at] === '/' && isPattern(source, at) ? endOfPattern(source, at) : null;
}

// Reads a module: the literals in which it is are kept from outside, as their quotes, and as the
// open braces of the code in a template.
class Reader {
  constructor(source) {
    Object.assign(this, { source, found: [], inside: [], text: '', begin: 0 });
  }

  end() {
    const { source, text, begin } = this;
    const from = source.lastIndexOf('\n', begin) + 1;
    const line = source.slice(0, begin).split('\n').length;
    this.found.push({ text, line, before: source.slice(from, begin) });
    this.text = '';
  }

  // Each returns where it has read to.
  readCode(at, top) {
    const sign = this.source[at];
    const next = skipped(this.source, at);
    if (next !== null) return next;
    if (sign === '\'' || sign === '`') {
      this.inside.push(sign);
      this.begin = at;
    } else if (sign === '{' && top) top.depth += 1;
    else if (sign === '}' && top?.depth === 0) {
      this.inside.pop();
      this.begin = at;
    } else if (sign === '}' && top) top.depth -= 1;
    return at;
  }

  readLiteral(at, top) {
    const sign = this.source[at];
    if (sign === top) {
      this.end();
      this.inside.pop();
    } else if (top === '`' && this.source.startsWith('${', at)) {
      this.end();
      this.inside.push({ depth: 0 });
      return at + 1;
    } else if (sign === '\\') {
      this.text += this.source.slice(at, at + 2);
      return at + 1;
    } else this.text += sign;
    return at;
  }

  read() {
    for (let at = 0; at < this.source.length; at += 1) {
      const top = this.inside.at(-1);
      at = typeof top === 'string' ? this.readLiteral(at, top) : this.readCode(at, top);
    }
    return this.found;
  }
}

// The parts of a module's text that are literals: [{text, line, before}]. 'before' is what stands
// before one on its line.
export const literalsOf = (source) => new Reader(source).read();

function endOf(source, sign, from) {
  const at = source.indexOf(sign, from);
  return at < 0 ? source.length : at;
}

// A slash begins a pattern where no value stands before it.
const isPattern = (source, at) =>
  /(^|[(,=:[!&|?{};\n]|return)\s*$/.test(source.slice(Math.max(0, at - 40), at));

function endOfPattern(source, at) {
  let isClass = false;
  for (let next = at + 1; next < source.length; next += 1) {
    if (source[next] === '\\') next += 1;
    else if (source[next] === '[') isClass = true;
    else if (source[next] === ']') isClass = false;
    else if (source[next] === '/' && !isClass) return next;
  }
  return source.length;
}

// What a browser or the room is told, by what stands before it.
const TECHNICAL = new RegExp([
  'class(Name)?: $', 'class: \\w+ \\? $', 'look( === \\w+)?,? ?[?:]? $',
  '(querySelector(All)?|closest|matches|getElementById)\\($', 'from $', 'import\\($', 'style: $',
].join('|'));
// Keys of the keyboard, fields of HTTP, names of the browser's own, and of programs.
const NAMES = new Set(['ArrowDown', 'ArrowUp', 'ArrowLeft', 'ArrowRight', 'Home', 'End', 'Enter',
  'Escape', 'Tab', 'Delete', 'Content-Type', 'Room-User', 'Room-First', 'If-Match',
  'If-None-Match', 'Files', 'NFC', 'NFKD', 'ETag', 'Word', 'Excel']);
// Rights by their letters, selectors, keys of what the browser keeps, and what 'deliver' answers.
const EXEMPT = [/^[DdCcow]{2}$/, /^("\] )?\.[\w-]+ \w+$/, /^rooms \w+( \w+)? $/, /^not sent$/];

const hasWords = (text) => /\p{L}{2,}[,:;]? \p{L}{2,}/u.test(text);
const isWord = (text) => /^\p{Lu}\p{Ll}+( …|[.:?!])?$/u.test(text);
const isSigned = (text) => /[’“”„«»–…]/.test(text) && /\p{L}/u.test(text);
// In the place of a text an element is given one.
const IS_SHOWN = new RegExp(['(textContent = |aria-label\': |title: |placeholder: |alt: )$',
  'element\\(\'\\w+\', \\{[^{}]*\\}, $', 'button\\($', 'tell\\(\'\\w+\', $'].join('|'));

export const LITERAL = {
  isText(text, before) {
    if (TECHNICAL.test(before) || NAMES.has(text) || EXEMPT.some((one) => one.test(text))) {
      return false;
    }
    return hasWords(text) || isWord(text) || isSigned(text)
      || (IS_SHOWN.test(before) && /\p{L}{2,}/u.test(text));
  },
  // Lines of modules, and how many texts they have.
  EXAMPLES: [
    ['tell(\'good\', `The folder ${name} was made.`);', 2],
    ['button(\'share\', does, { class: \'small plain\' })', 1],
    ['element(\'p\', { class: \'hint\' }, \'none\')', 1],
    ['const WORD = \'Download\';', 1],
    ['const both = `${name} – ${other}`;', 0],
    ['one.querySelector(\'tr td input\'); const key = \'Escape\'; // Two words.', 0],
    ['const two = `a ${one ? \'that was\' : \'\'} b`;', 1],
  ],
};
