// What each key and each button of the steps does.
import {byId, isNarrow} from './elements.js';
import {cardKey} from '../machine/search.js';
import {nextChoice} from './follow.js';
import {showHelp} from '../words/help.js';
import {savePicture} from '../drawing/picture.js';

const [SMALLEST, LARGEST, OF_CLASS] = [11, 28, 19];

function resize(page, by) {
  resizeTo(page, Math.max(SMALLEST, Math.min(LARGEST, page.steps.view.size + by)));
}
function resizeTo({steps, editor}, size) {
  steps.view.size = size;
  document.documentElement.style.fontSize = `${size}px`;
  editor.area.draw();
  steps.redraw();
}

// The view for a class has no bars, no list of lessons, and large letters; the list and the size that were there before come back after it.
function togglePresent(page) {
  const on = document.body.classList.toggle('present'), {view} = page.steps;
  if (on) Object.assign(view, {sizeBefore: view.size, lessonsBefore: !byId('lessons').hidden});
  byId('leave-class').hidden = !on;
  if (!on) view.fit = document.body.classList.toggle('wide', false); // so that it always begins alike
  if (view.lessonsBefore) page.showLessons(!on);
  resizeTo(page, on ? Math.max(OF_CLASS, view.size) : view.sizeBefore ?? view.size);
}

export function toggleLessons(page, shown = byId('lessons').hidden) {
  const panel = byId('lessons');
  panel.hidden = !shown;
  byId('lessons-button').setAttribute('aria-pressed', String(!panel.hidden));
  if (shown) panel.querySelector('summary')?.focus({preventScroll: true});
  if (shown && isNarrow()) panel.scrollIntoView();
  page.steps.redraw();
}

function toggleTwo(page) {
  const {steps} = page;
  return page.guard(async () => {
    if (!steps.shown) return steps.step(undefined, page.core('other'));
    steps.session.other = steps.session.other === null ? page.core('other') : null;
    await steps.goTo(steps.session.state.count);
  });
}

// Stops what is computed; where nothing is, leaves the cell that the keys have come to, or the view for a class, or closes the lessons.
function escape(page) {
  if (byId('busy').hidden && page.steps.shown && page.steps.view.walked) return page.steps.walksOff();
  if (document.body.classList.contains('present') && byId('busy').hidden) return togglePresent(page);
  if (!byId('busy').hidden) return page.guard(() => page.steps.stopped());
  if (!byId('lessons').hidden) toggleLessons(page);
}

// Acts that need no machine.
const ALWAYS = {
  larger: page => resize(page, 1),
  smaller: page => resize(page, -1),
  lessons: page => toggleLessons(page),
  help: () => showHelp(),
  two: page => toggleTwo(page),
  present: page => togglePresent(page),
  edit: page => page.show('deck'),
  escape,
};

// What is drawn otherwise at a key.
function redrawn(steps, name) {
  steps.view[name] = !steps.view[name];
  steps.redraw();
}

// Acts over the moment that is shown.
const STEPS = {
  forth: page => page.steps.goBy(1),
  back: page => page.steps.goBy(-1),
  tenForth: page => page.steps.goBy(10),
  tenBack: page => page.steps.goBy(-10),
  first: page => page.guard(() => page.steps.goTo(0)),
  last: page => page.steps.toEnd('end', 0, 'There is no end'),
  before: page => page.steps.toEnd('firstFault', 1, 'There is no fault and no end'),
  ...Object.fromEntries(['over', 'out', 'line', 'paging', 'task', 'store', 'fault', 'stopped', 'deepest'].map(kind => [kind, (page, way) => page.steps.find(kind, way)])),
  lost: ({steps}, way) => steps.along('lost', way, 'No store is lost on this line of time, so the page stays here.'),
  stoppedBack: page => page.steps.find('stopped', -1),
  follow: ({steps}, way) => steps.follows(steps.view.walked && way > 0 && steps.view.walked.split(' ').length === 3 ? steps.view.walked : nextChoice(steps.session.state, steps.view.followed, way)),
  stop: ({steps}) => steps.toggle(cardKey(steps.session.state.next ?? steps.session.state.operator)),
  cellUp: ({steps}) => steps.walks(1),
  cellDown: ({steps}) => steps.walks(-1),
  play: page => page.steps.play(),
  quiz: page => page.course.quiz.turn(),
  fold: ({steps}) => redrawn(steps, 'folds'),
  arrows: ({steps}) => redrawn(steps, 'allArrows'),
  fit: ({steps}) => redrawn(steps, 'fit'),
  picture: page => page.guard(() => savePicture(byId('stacks'), `${page.steps.session.name}-${page.steps.session.state.count}`)),
  wide: page => { document.body.classList.toggle('wide'); page.steps.redraw(); },
};

export function perform(page, act, way) {
  if (ALWAYS[act]) return ALWAYS[act](page);
  if (page.steps.shown) return STEPS[act]?.(page, way);
}
