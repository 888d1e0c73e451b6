// What stays in this browser: decks of one's own, and which tasks are done. Each deck has an entry of its own in the storage, and marks are
// put beside those that stand there by then, so that two tabs don't overwrite each other. Where there is no storage, as in a frame without an origin, all lasts as long as the page.
const [DECK, MOST_DECKS] = ['b67-deck ', 60];

// The browser's storage; null where it is refused.
export function storageOf(scope) {
  try {
    const {localStorage: storage} = scope;
    storage.setItem('b67-tried', '1');
    storage.removeItem('b67-tried');
    return storage;
  } catch {
    return null;
  }
}

// A value from the storage; undefined if there is none, or none that can be read.
export function keptValue(storage, key) {
  try {
    return JSON.parse(storage.getItem(key)) ?? undefined;
  } catch {
    return undefined;
  }
}

// Keeps a value; says whether that was done, which a full storage refuses.
export function keepValue(storage, key, value) {
  try {
    storage.setItem(key, JSON.stringify(value));
    return true;
  } catch {
    return false;
  }
}

// Decks of one's own: `mine-1`, `mine-2` and so on, each with its text, its core, the deck that it was begun from, the task of the course
// that it was written for, and when it was changed.
export class OwnDecks {
  constructor(storage) {
    Object.assign(this, {storage, decks: new Map()});
    this.look();
  }

  // Takes in those that another tab has kept.
  look() {
    const keys = Array.from({length: this.storage?.length ?? 0}, (_, k) => this.storage.key(k)).filter(key => key?.startsWith(DECK));
    for (const key of keys) {
      const deck = keptValue(this.storage, key), name = key.slice(DECK.length);
      if (typeof deck?.text === 'string' && /^mine-\d+$/.test(name)) this.decks.set(name, {...deck, name});
    }
  }

  get(name) {
    return this.decks.get(name);
  }
  list() {
    return [...this.decks.values()].sort((a, b) => b.changed - a.changed);
  }
  withText(text) {
    return this.list().find(deck => deck.text === text);
  }

  // A new one; gives its name. Of very many the one that wasn't changed for longest is given up.
  begin(text, core, from, task = '', now = Date.now()) {
    this.look();
    const number = Math.max(0, ...[...this.decks.keys()].map(name => Number(name.slice(5)))) + 1, name = `mine-${number}`;
    this.put(name, {text, core, from, task}, now);
    if (this.decks.size > MOST_DECKS) this.remove(this.list().at(-1).name);
    return name;
  }

  // Keeps a deck under its name; says whether the browser keeps it.
  put(name, {text, core, from = this.decks.get(name)?.from ?? '', task = this.decks.get(name)?.task ?? ''}, now = Date.now()) {
    const deck = {text, core: Number(core), from, task, changed: now};
    this.decks.set(name, {...deck, name});
    return keepValue(this.storage, DECK + name, deck);
  }

  remove(name) {
    this.decks.delete(name);
    this.storage?.removeItem(DECK + name);
  }
}

// Gives the reader a text as a file.
export function saveFile(text, name, kind = 'text/plain') {
  const address = URL.createObjectURL(new Blob([text], {type: kind})), link = document.createElement('a');
  Object.assign(link, {href: address, download: name});
  link.click();
  setTimeout(() => URL.revokeObjectURL(address), 10000);
}
