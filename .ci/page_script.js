// Runs the script of a page over a stand-in for what it asks of a browser. Standard input is a JSON object: `page` has the elements, `script`
// the text, and `deeds` what a reader does, as ["press", STAGE] for a button and ["type", WORDS] for the field. Standard output has the state
// after each deed: which elements `details` of the tree are open, and which of its elements `li` are hidden. `.ci/shown` calls this.
const { page, script, deeds } = JSON.parse(require('fs').readFileSync(0, 'utf8'));

class Element {
  constructor({ tag, attributes, parts }) {
    this.tag = tag;
    this.attributes = attributes;
    this.open = 'open' in attributes;
    this.hidden = 'hidden' in attributes;
    this.parts = parts.map(part => typeof part === 'string' ? part : new Element(part));
    this.children = this.parts.filter(part => typeof part !== 'string');
    this.dataset = {};
    for (const name in attributes) if (name.startsWith('data-')) this.dataset[name.slice(5)] = attributes[name];
  }
  get textContent() { return this.parts.map(part => typeof part === 'string' ? part : part.textContent).join(''); }
  get firstElementChild() { return this.children[0]; }
  get below() { return this.children.flatMap(child => [child, ...child.below]); }
  // Whether the element fits a selector of one part: .CLASS, #ID, [ATTRIBUTE] or TAG.
  fits(selector) {
    const [, sign, word] = selector.match(/^([.#[]?)([\w-]+)\]?$/);
    if (sign === '.') return this.attributes.class === word;
    if (sign === '#') return this.attributes.id === word;
    return sign === '[' ? word in this.attributes : this.tag === word;
  }
  // A selector has one part, or is a way of children: `:scope > TAG > TAG`.
  querySelectorAll(selector) {
    const [first, ...way] = selector.split(' > ');
    if (first !== ':scope') return this.below.filter(element => element.fits(selector));
    return way.reduce((found, part) => found.flatMap(element => element.children.filter(child => child.fits(part))), [this]);
  }
  querySelector(selector) { return this.querySelectorAll(selector)[0] ?? null; }
}

const document = new Element(page);
new Function('document', script)(document);
const tree = document.querySelector('.tree');
const states = deeds.map(([kind, word]) => {
  if (kind === 'press') document.querySelectorAll('[data-open]').find(button => button.dataset.open === word).onclick();
  else document.querySelector('#words').oninput({ target: { value: word } });
  return [tree.querySelectorAll('details').map(branch => branch.open), tree.querySelectorAll('li').map(item => item.hidden)];
});
console.log(JSON.stringify(states));
