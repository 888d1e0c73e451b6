// Elements of the page. Text is always put in as text, never as HTML: decks can hold anything.

function filled(made, attributes, children) {
  for (const [name, value] of Object.entries(attributes)) {
    if (name.startsWith('on')) made.addEventListener(name.slice(2), value);
    else if (value !== undefined && value !== false) made.setAttribute(name, value === true ? '' : value);
  }
  made.append(...children.flat(Infinity).filter(child => child !== null && child !== undefined && child !== false));
  return made;
}

export function element(name, attributes = {}, ...children) {
  return filled(document.createElement(name), attributes, children);
}

export function drawn(name, attributes = {}, ...children) {
  return filled(document.createElementNS('http://www.w3.org/2000/svg', name), attributes, children);
}

export function byId(id) {
  return document.getElementById(id);
}

// Whether all parts stand below each other, as on a phone; the same widths and heights stand in page.css.
export function isNarrow() {
  return matchMedia('(max-width:800px),(max-height:480px)').matches;
}

export function put(box, ...children) {
  box.replaceChildren(...children.flat(Infinity).filter(child => child !== null && child !== undefined && child !== false));
}

const keys = new WeakMap(); // of each node that putKept has made

// Puts parts into a box, each a key and what makes its node. A node whose key is wanted again stays as it is, so of a picture only
// that is drawn which has changed. Gives the nodes.
export function putKept(box, parts) {
  const old = new Map([...box.childNodes].map(node => [keys.get(node), node]));
  const nodes = parts.map(([key, make]) => {
    const found = old.get(key) ?? make();
    old.delete(key);
    keys.set(found, key);
    return found;
  });
  const kept = new Set(nodes);
  for (const node of [...box.childNodes]) if (!kept.has(node)) node.remove();
  nodes.forEach((node, k) => { if (box.childNodes[k] !== node) box.insertBefore(node, box.childNodes[k] ?? null); });
  return nodes;
}

// Sets an attribute that differs.
export function set(node, name, value) {
  if (node.getAttribute(name) !== String(value)) node.setAttribute(name, value);
}

export function chip(kind, text, title) {
  return element('span', {class: `chip ${kind}`, title}, text);
}

// The class of a task's colour: ten colours, by its job and its number.
export function taskClass(name) {
  const [job, number] = String(name).split('.').map(Number);
  return `task task-${(3 * (job - 1) + number - 1) % 10}`;
}
