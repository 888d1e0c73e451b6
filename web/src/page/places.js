// Places: what an address leads to, and the address of what is open. addresses.js takes them apart.
import {byId, isNarrow} from './elements.js';
import {hashOf, placeOf} from './address.js';
import {START} from './decks.js';
import {USUAL_CORE} from '../editor/editor.js';
import {handedIn} from '../course/handin.js';
import {isPacked, unpacked} from '../editor/share.js';

const ADDRESS_MILLISECONDS = 200;
const CANT_READ = 'This page can’t read that address: one is #two,630,20, a deck, its core and a count.';

export class Places {
  constructor(page) {
    this.page = page;
  }

  // ------------------------------------------------------------ to a place

  // Goes to what the address names, or shows the first deck.
  async follow(hash = location.hash) {
    clearTimeout(this.addresses);
    this.addresses = null;
    const {page} = this, place = placeOf(hash);
    if (place && place.kind !== 'moment') {
      this.held = place.kind === 'hand' ? hash : '';
      return page.guard(() => this[place.kind](place));
    }
    if (!place) return this.first(hash);
    if (!this.isShown(place)) await page.guard(() => this.open(place));
    page.course.takesUp(history.state?.task);
    page.hand.tells(hash);
    if (isNarrow()) scrollTo(0, 0);
  }

  // Without an address: the first deck, and for whoever is new a way in.
  first(hash) {
    const {page} = this;
    if (!page.editor.name) page.editor.choose(START.name);
    byId('welcome').hidden = hash.length > 1 || !page.course.isNew();
    page.say(hash.length > 1 ? CANT_READ : '');
  }

  isShown({deck, core, count, other}) {
    const session = this.page.steps.shown;
    return session && [session.name, session.code].includes(deck) && session.core === core && session.state.count === count && session.other === other;
  }

  // A lesson, with its first moment if no deck of one's own is open.
  async lesson({id}) {
    if (!await this.page.course.opensLesson(id)) throw new Error(`There is no lesson ${id} in this page: see the list of lessons.`);
  }
  async task({id}) {
    if (!this.page.editor.name) this.page.editor.choose(START.name);
    if (!await this.page.course.opensTask(id)) throw new Error(`There is no exercise ${id} in this page: see the list of lessons.`);
  }
  // A sheet of a teacher's own exercises, and one of them.
  async sheet({packed, number}) {
    if (!this.page.editor.name) this.page.editor.choose(START.name);
    await this.page.course.opensSheet(await unpacked(packed), number);
  }
  async hand({packed}) {
    if (!this.page.editor.name) this.page.editor.choose(START.name);
    this.page.hand.shows(await handedIn(packed), packed);
  }

  async open({deck, core, count, other}) {
    const text = isPacked(deck) ? await unpacked(deck) : null, {editor, steps} = this.page;
    if (text === null && !editor.has(deck)) {
      if (!editor.name) editor.choose(START.name);
      throw new Error(`There is no deck ${deck} in this page: choose one from the list.`);
    }
    if (text === null && editor.name !== deck) editor.choose(deck);
    if (core) byId('core').value = core;
    if (text !== null && editor.text !== text) editor.take(text, this.page.hand.about());
    if (other) byId('other').value = other;
    if (other) this.page.core('other');
    byId('two').setAttribute('aria-pressed', String(Boolean(other)));
    if (count === null) return this.page.show('deck');
    await steps.step(count, other);
  }
  openAddress(address) {
    return this.open(placeOf(`#${address}`));
  }

  // Opens another deck; what was open before is one step back in the browser's history.
  async leaves(opens) {
    await this.put();
    history.pushState(history.state, '', location.href);
    this.page.show('deck');
    this.page.hand.forgets();
    opens();
  }
  newDeck() {
    this.page.show('deck');
    this.page.editor.begin();
  }

  // ------------------------------------------------------------ the address of what is open

  // Puts what is shown into the address, and the exercise that is being done into the history's entry, soon. Soon is when nothing is under way any more, since what is shown until then isn't what the
  // address asks for.
  soon() {
    this.addresses ??= setTimeout(() => {
      this.addresses = null;
      if (this.page.working) this.soon();
      else this.put();
    }, ADDRESS_MILLISECONDS);
  }
  async put() {
    clearTimeout(this.addresses);
    this.addresses = null;
    const address = await this.now(), task = this.page.course.current?.id ?? '';
    if (!this.addresses && (location.hash !== address || (history.state?.task ?? '') !== task)) history.replaceState({task}, '', location.search + address);
  }
  async now() {
    if (this.page.shows('hand')) return this.held || location.hash;
    const {code, core, state, other} = this.page.steps.shown ?? {};
    if (state) return hashOf({deck: code, core, count: state.count, other});
    return hashOf({deck: await this.page.editor.addressed(), core: Number(byId('core').value) || USUAL_CORE});
  }

  // Shows an address that leads to what is open now.
  link() {
    return this.page.guard(async () => {
      await this.put();
      const far = isPacked(location.hash.slice(1)) || !this.page.editor.isOwn();
      this.shows('An address of this deck, at this moment', location.href, far ? '' : 'This deck is too long for an address. The one above works in this browser only: save the deck as a file to hand it on.');
    });
  }
  // Shows an address to be copied.
  shows(title, address, said = '') {
    byId('link-title').textContent = title;
    byId('link-text').value = address;
    byId('link-copy').textContent = 'Copy';
    byId('link-said').textContent = said || `${address.length.toLocaleString('en')} characters. ${location.protocol === 'file:' ? 'Whoever has this page as a file opens it there: what counts begins at the sign #.' : ''}`;
    byId('link-dialog').showModal();
    byId('link-text').select();
  }
  // An address of this page with another end.
  withHash(hash) {
    return location.href.replace(/#.*/, '') + hash;
  }
}
