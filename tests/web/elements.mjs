// As much of a browser's elements as the modules of the page use, so that node plays its dialogs:
// what is shown can be read and pressed. Nothing is drawn.

const PROPERTIES = ['id', 'name', 'type', 'title', 'href', 'lang', 'dir'];
const FLAGS = ['disabled', 'hidden', 'open', 'autofocus'];

// What one sign of a selector asks for, such as '.primary'.
function signTest(sign) {
  if (sign.startsWith('.')) return (one) => one.classList.contains(sign.slice(1));
  if (sign.startsWith('#')) return (one) => one.getAttribute('id') === sign.slice(1);
  if (sign === ':last-child') return (one) => one.parentNode?.children.at(-1) === one;
  if (sign.startsWith(':')) return (one) => one[sign.slice(1)] === true;
  const [, name, value] = /^\[([\w-]+)(?:="?([^"]*)"?)?\]$/.exec(sign) ?? [];
  if (name === undefined) return (one) => one.tagName === sign.toUpperCase();
  return value === undefined ? (one) => one.hasAttribute(name)
    : (one) => one.getAttribute(name) === value;
}

const NOT = /:not\(([^)]*)\)/g;
// One part of a selector, such as 'button.primary:not([disabled])'.
function partTest(part) {
  const never = [...part.matchAll(NOT)].map(([, inner]) => partTest(inner));
  const always = (part.replace(NOT, '')
    .match(/^[a-z]+[0-9]?|\.[\w-]+|#[\w-]+|\[[^\]]+\]|:[\w-]+/g) ?? []).map(signTest);
  return (one) => always.every((test) => test(one)) && !never.some((test) => test(one));
}

// One of several selectors, from its last part on: a part that has a child is after '>'.
function oneTest(selector) {
  const [last, ...parts] = selector.trim().split(/\s+/).reverse();
  const test = partTest(last);
  const steps = [];
  for (const [at, part] of parts.entries()) {
    if (part !== '>') steps.push({ isParent: parts[at - 1] === '>', test: partTest(part) });
  }
  return (one) => {
    let at = test(one) ? one : null;
    for (const step of steps) {
      at &&= at.parentNode;
      while (at && !step.isParent && !step.test(at)) at = at.parentNode;
      if (!at || !step.test(at)) return false;
    }
    return at !== null;
  };
}

// A selector is read once.
const tests = new Map();
function testOf(selector) {
  if (!tests.has(selector)) {
    const all = selector.split(',').map(oneTest);
    tests.set(selector, (one) => all.some((test) => test(one)));
  }
  return tests.get(selector);
}

class Text {
  constructor(text) { this.textContent = text; }

  remove() { this.parentNode?.drop(this); }
}

class Element extends EventTarget {
  constructor(tag) {
    super();
    Object.assign(this, { tagName: tag.toUpperCase(), nodes: [], attributes: new Map(),
      dataset: {}, style: { setProperty() {} }, parentNode: null, checked: false,
      validity: { badInput: false }, own: undefined });
    this.classList = {
      contains: (name) => ` ${this.className} `.includes(` ${name} `),
      add: (name) => this.classList.toggle(name, true),
      remove: (name) => this.classList.toggle(name, false),
      toggle: (name, on = !this.classList.contains(name)) => {
        const rest = this.className.split(' ').filter((one) => one !== name && one !== '');
        this.className = [...rest, ...on ? [name] : []].join(' ');
      },
    };
  }

  get className() { return this.getAttribute('class') ?? ''; }

  set className(value) { this.setAttribute('class', value); }

  getAttribute(name) { return this.attributes.get(name) ?? null; }

  hasAttribute(name) { return this.attributes.has(name); }

  removeAttribute(name) { this.attributes.delete(name); }

  setAttribute(name, value) {
    this.attributes.set(name, String(value));
    if (name === 'checked') this.checked = true;
  }

  get children() { return this.nodes.filter((one) => one instanceof Element); }

  get childElementCount() { return this.children.length; }

  get firstChild() { return this.nodes[0] ?? null; }

  get parentElement() { return this.parentNode; }

  get options() { return this.querySelectorAll('option'); }

  get selectedOptions() { return this.options.filter((one) => one.value === this.value); }

  // Of a menu it is what was chosen, or what was given.
  get value() {
    if (this.own !== undefined) return this.own;
    if (this.tagName !== 'SELECT') return this.getAttribute('value') ?? '';
    const given = this.options.find((one) => one.hasAttribute('selected')) ?? this.options[0];
    return given?.value ?? '';
  }

  set value(value) { this.own = value; }

  get textContent() { return this.nodes.map((one) => one.textContent).join(''); }

  // With a line for each block.
  get innerText() {
    const end = ['B', 'A', 'BDI', 'SPAN', 'STRONG'].includes(this.tagName) ? '' : '\n';
    return this.nodes.map((one) => one.innerText ?? one.textContent).join('') + end;
  }

  set textContent(text) { this.replaceChildren(...text === '' ? [] : [text]); }

  get isConnected() { return this === document.body || this.parentNode?.isConnected === true; }

  // Nothing here has a style.
  checkVisibility() { return this.isConnected; }

  drop(node) { this.nodes = this.nodes.filter((one) => one !== node); }

  put(at, those) {
    const nodes = those.map((one) => (typeof one === 'object' ? one : new Text(String(one))));
    for (const node of nodes) {
      node.remove();
      node.parentNode = this;
    }
    this.nodes.splice(at, 0, ...nodes);
  }

  append(...those) { this.put(this.nodes.length, those); }

  prepend(...those) { this.put(0, those); }

  replaceChildren(...those) {
    for (const node of this.nodes) node.parentNode = null;
    this.nodes = [];
    this.append(...those);
  }

  before(...those) { this.parentNode.put(this.parentNode.nodes.indexOf(this), those); }

  after(...those) { this.parentNode.put(this.parentNode.nodes.indexOf(this) + 1, those); }

  replaceWith(...those) {
    this.before(...those);
    this.remove();
  }

  remove() {
    this.parentNode?.drop(this);
    this.parentNode = null;
  }

  matches(selector) { return testOf(selector)(this); }

  closest(selector) {
    return this.matches(selector) ? this : this.parentNode?.closest(selector) ?? null;
  }

  contains(node) {
    return node === this || (Boolean(node?.parentNode) && this.contains(node.parentNode));
  }

  querySelectorAll(selector) {
    const found = [];
    this.gather(testOf(selector), found, false);
    return found;
  }

  querySelector(selector) {
    const found = [];
    this.gather(testOf(selector), found, true);
    return found[0] ?? null;
  }

  // Those in it that pass a test, or the first of them.
  gather(test, found, isOne) {
    for (const node of this.nodes) {
      if (isOne && found.length > 0) return;
      if (!(node instanceof Element)) continue;
      if (test(node)) found.push(node);
      node.gather(test, found, isOne);
    }
  }

  click() {
    if (this.disabled) return;
    if (['checkbox', 'radio'].includes(this.type)) {
      this.checked = this.type === 'radio' || !this.checked;
      this.dispatchEvent(new Event('change'));
    }
    this.dispatchEvent(new Event('click'));
    if (this.type === 'submit') this.closest('form')?.dispatchEvent(new Event('submit'));
  }

  focus() { document.activeElement = this; }

  showModal() {
    this.open = true;
    document.activeElement = this.querySelector('[autofocus], input, button') ?? this;
  }

  close() {
    this.open = false;
    this.dispatchEvent(new Event('close'));
  }

  setSelectionRange() {}

  select() {}

  blur() {}

  scrollIntoView() {}
}
for (const name of PROPERTIES) {
  Object.defineProperty(Element.prototype, name, {
    get() { return this.getAttribute(name) ?? ''; },
    set(value) { this.setAttribute(name, value); },
  });
}
for (const name of FLAGS) {
  Object.defineProperty(Element.prototype, name, {
    get() { return this.hasAttribute(name); },
    set(value) {
      if (value) this.setAttribute(name, '');
      else this.removeAttribute(name);
    },
  });
}

// The page's own parts, at an address.
export function showPage() {
  const body = new Element('body');
  Object.assign(globalThis, {
    document: { body, documentElement: new Element('html'), activeElement: body,
      createElement: (tag) => new Element(tag), createElementNS: (_, tag) => new Element(tag),
      getElementById: (id) => body.querySelector(`#${id}`),
      querySelector: (selector) => body.querySelector(selector),
      querySelectorAll: (selector) => body.querySelectorAll(selector) },
    location: { href: 'https://rooms.example/', pathname: '/', hash: '' },
    window: new EventTarget(), CSS: { escape: (text) => text },
    localStorage: { getItem: () => null, setItem() {}, removeItem() {} },
  });
  for (const id of ['notices', 'uploads', 'path']) {
    const box = document.createElement('div');
    box.id = id;
    body.append(box);
  }
  return body;
}
