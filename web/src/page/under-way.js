// What is told while the worker computes, and after Stop: how long it takes, and how far a search has come. `at` is an operator up to which,
// or back to which, it has found nothing.

function numbered(count) {
  return `operator ${count.toLocaleString('en')}`;
}

// While it computes, after so many seconds; `at` and the run's `end` may be unknown.
export function underWayText(seconds, at, end) {
  const lasts = seconds ? `computing for ${seconds} s` : 'computing';
  if (at !== null) return `${lasts}, at ${numbered(at)}${end ? ` of ${end.toLocaleString('en')}` : ''}`;
  return seconds < 3 ? lasts : `${lasts}; an endless loop ends at its ?LIMIT, or by Stop`;
}

// After Stop: of a search from a count, where `none` says what there isn't; of anything else only how long it has taken.
export function stoppedText(seconds, {none, from, at} = {}) {
  if (none) return `Stopped. ${none} from ${numbered(from)} to ${numbered(at)}.`;
  return `Stopped${seconds ? ` after ${seconds} s` : ''}, before it was done; the page stays where it was. A long run can be looked at in parts: press Step, and type a count.`;
}
