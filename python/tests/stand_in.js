// A stand-in for a browser, for node: as much of a document as the page's script uses. The first line of the input has the tree of the page, each
// element a list of its name, its attributes and its children; each further line calls one of `calls`, and gets a line as its answer.
'use strict';
const readline = require('readline');

class Element {
  constructor(name) {
    Object.assign(this, { name, attributes: new Map(), childNodes: [], parentNode: null, listeners: [] });
    const shown = key => `data-${key.replace(/[A-Z]/g, it => `-${it.toLowerCase()}`)}`;
    this.dataset = new Proxy({}, {
      get: (_, key) => this.attributes.get(shown(key)),
      set: (_, key, value) => { this.setAttribute(shown(key), value); return true; },
    });
    const names = () => (this.getAttribute('class') || '').split(' ').filter(it => it);
    this.classList = {
      contains: it => names().includes(it),
      add: (...added) => this.setAttribute('class', [...new Set([...names(), ...added])].join(' ')),
      remove: (...gone) => this.setAttribute('class', names().filter(it => !gone.includes(it)).join(' ')),
      toggle: (it, is) => is ? this.classList.add(it) : this.classList.remove(it),
    };
  }
  setAttribute(name, value) { this.attributes.set(name, String(value)); }
  getAttribute(name) { return this.attributes.get(name) ?? null; }
  removeAttribute(name) { this.attributes.delete(name); }
  hasAttribute(name) { return this.attributes.has(name); }
  append(...children) {
    for (const it of children) {
      if (it instanceof Element) {
        if (it.parentNode) it.parentNode.childNodes.splice(it.parentNode.childNodes.indexOf(it), 1);
        it.parentNode = this;
      }
      this.childNodes.push(it instanceof Element ? it : String(it));
    }
  }
  replaceChildren(...children) { this.textContent = ''; this.append(...children); }
  get children() { return this.childNodes.filter(it => it instanceof Element); }
  get textContent() { return this.childNodes.map(it => it instanceof Element ? it.textContent : it).join(''); }
  set textContent(text) {
    for (const it of this.children) it.parentNode = null;
    this.childNodes = text === '' ? [] : [String(text)];
  }
  *all() { for (const it of this.children) { yield it; yield* it.all(); } }
  matches(selector) {
    return selector.split(/,\s*/).some(it => {
      const words = it.split(' '), last = words.pop();
      if (!this.isOne(last)) return false;
      let above = this.parentNode;
      for (const word of words.reverse()) {
        while (above && !above.isOne(word)) above = above.parentNode;
        if (!above) return false;
        above = above.parentNode;
      }
      return true;
    });
  }
  isOne(word) {
    const parts = word.match(/^[\w-]+|#[\w-]+|\.[\w-]+|\[[^\]]+\]/g);
    if (parts.join('') !== word) throw new Error(`a selector that isn't known: ${word}`);
    return parts.every(part => {
      if (part[0] === '#') return this.getAttribute('id') === part.slice(1);
      if (part[0] === '.') return this.classList.contains(part.slice(1));
      if (part[0] !== '[') return this.name === part;
      const [name, value] = part.slice(1, -1).split('=');
      // As in a browser: a value that begins with a digit must be quoted.
      if (/^\d/.test(value)) throw new Error(`a value without quotes: ${word}`);
      return value === undefined ? this.hasAttribute(name) : this.getAttribute(name) === value.replace(/^'(.*)'$/, '$1');
    });
  }
  querySelectorAll(selector) { return [...this.all()].filter(it => it.matches(selector)); }
  querySelector(selector) { return this.querySelectorAll(selector)[0] || null; }
  closest(selector) { return this.matches(selector) ? this : this.parentNode && this.parentNode.closest(selector); }
  addEventListener(type, listener) { this.listeners.push([type, listener]); }
  dispatch(type, given = {}) {
    const event = { type, target: this, preventDefault() {}, ...given };
    for (let at = this; at; at = at.parentNode) for (const [kind, listener] of at.listeners) if (kind === type) listener(event);
  }
  // Tables.
  get tHead() { return this.querySelector('thead'); }
  get tBodies() { return this.querySelectorAll('tbody'); }
  get rows() { return this.children.filter(it => it.name === 'tr'); }
  get cells() { return this.children.filter(it => it.name === 'td' || it.name === 'th'); }
  get cellIndex() { return this.parentNode.cells.indexOf(this); }
  // Fields.
  get options() { return this.querySelectorAll('option'); }
  get selectedIndex() { return this.chosen ?? Math.max(this.options.findIndex(it => it.hasAttribute('selected')), 0); }
  set selectedIndex(at) { this.chosen = at; }
  get value() {
    if (this.name !== 'select') return this.typed ?? this.getAttribute('value') ?? '';
    const it = this.options[this.selectedIndex];
    return it ? it.getAttribute('value') ?? it.textContent : '';
  }
  set value(text) {
    if (this.name === 'select') this.chosen = this.options.findIndex(it => (it.getAttribute('value') ?? it.textContent) === text);
    else this.typed = String(text);
  }
}

function made([name, attributes, children]) {
  const element = new Element(name);
  for (const [key, value] of Object.entries(attributes)) element.setAttribute(key, value ?? '');
  element.append(...children.map(it => typeof it === 'string' ? it : made(it)));
  return element;
}

function begin(tree) {
  const top = made(tree);
  const document = Object.assign(new Element('#document'), {
    createElement: name => new Element(name),
    createElementNS: (_, name) => new Element(name),
    getElementById: id => top.querySelector(`#${id}`),
  });
  document.append(top);
  document.documentElement = top.querySelector('html');
  for (const script of top.querySelectorAll('script')) if (!script.hasAttribute('type')) new Function('document', script.textContent)(document);
  return document;
}

let document = null;
const one = (selector, at) => {
  const found = document.querySelectorAll(selector)[at];
  if (!found) throw new Error(`there is no ${selector} ${at}`);
  return found;
};
const calls = {
  begin: tree => { document = begin(tree); },
  all: selector => document.querySelectorAll(selector).map(it => ({ text: it.textContent, attributes: Object.fromEntries(it.attributes) })),
  click: (selector, at) => one(selector, at).dispatch('click'),
  press: (selector, at, key) => one(selector, at).dispatch('keydown', { key }),
  pick: (selector, at, index) => { one(selector, at).selectedIndex = index; one(selector, at).dispatch('change'); },
  type: (selector, at, text) => { one(selector, at).value = text; one(selector, at).dispatch('input'); },
};
readline.createInterface({ input: process.stdin }).on('line', line => {
  const [name, ...given] = JSON.parse(line);
  let answer;
  try {
    answer = { answer: calls[name](...given) ?? null };
  } catch (fault) {
    answer = { fault: fault.stack };
  }
  console.log(JSON.stringify(answer));
});
