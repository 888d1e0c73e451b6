// The stack that a deck asks for: as much as the deepest calls can need, or the greatest there is if procedures call themselves.

import {Seg, PARTS} from './segments.mjs';
import {segmentsOf} from './pass.mjs';

const [LEAST, GREATEST, WITH_TASKS, SPARE] = [64, 16383, 4095, 8];

// The words of a stack for segments of which `roots` begin a task; `tasks` says whether others than the first one do.
export function stackFor(roots, tasks) {
  const heights = new Map();
  const most = Math.max(...roots.map(seg => height(seg, heights)));
  const wanted = 1 + most + SPARE;
  return wanted <= GREATEST ? Math.max(LEAST, wanted) : tasks ? WITH_TASKS : GREATEST;
}

// How high a stack may stand above the record below, for a segment and all that it enters; without an end if it may enter itself.
function height(seg, heights) {
  if (heights.has(seg)) return heights.get(seg);
  heights.set(seg, Infinity);
  let deepest = 0;
  for (const next of new Set(seg.enters.flatMap(to => to instanceof Seg ? [to] : segmentsOf(to)))) deepest = Math.max(deepest, height(next, heights));
  const cells = PARTS.reduce((n, part) => n + seg.parts[part].length, 0), found = 2 + cells + seg.most + deepest;
  heights.set(seg, found);
  return found;
}
