// The stack on which all others stand stays at the left while the picture is scrolled past it.
import {set} from '../page/elements.js';

const MOST_OF_BOX = 0.5; // of the box's width that it may take

// Whether the first task is the one on which all others stand.
export function isRoot(tasks) {
  const jobs = new Set(tasks.map(task => task.name.split('.')[0]));
  return tasks.length > 1 && jobs.size === 1;
}

// The width that the pinned stack takes of a box; 0 if it isn't pinned, as where all stacks are in view.
export function pinnedWidth(tasks, {width, right, size}, clientWidth) {
  const room = right * size, pins = isRoot(tasks) && width * size > clientWidth && room < MOST_OF_BOX * clientWidth;
  return pins ? room : 0;
}

// Shows the pinned stack where the box is scrolled past it.
export function showPinned(box, pinned, left) {
  pinned.style.visibility = pinned.dataset.pins && box.scrollLeft > left ? 'visible' : 'hidden';
}

// Gives the pinned picture its size, and lets it come and go as the box is scrolled.
export function placePinned(box, pinned, room, {above, full, size, left}) {
  pinned.dataset.pins = room ? '1' : '';
  for (const [name, value] of Object.entries({width: Math.max(1, room), height: full * size, viewBox: `0 ${above} ${Math.max(1, room / size)} ${full}`})) set(pinned, name, value);
  box.onscroll = () => showPinned(box, pinned, left * size);
  box.onscroll();
}

// The corner from which a place of the window is measured: that of the pinned stack if the place is on it.
export function cornerAt(svg, pinned, {clientX}) {
  const box = pinned.getBoundingClientRect();
  return pinned.style.visibility === 'visible' && clientX < box.right ? box : svg.getBoundingClientRect();
}
