// The addresses of the page, by what stands after their sign #:
//
//     two,630,20          the deck two in a core of 630 words after operator 20; a fourth part is the second core of two side by side
//     deck:..,4096,20     the same of a deck that the address holds, as share.js packs it
//     lesson:3  task:3.2  a lesson, and a task
//     sheet:..,2          a sheet of a teacher's own tasks, and its second one
//     hand:..             what a pupil hands in

const PACKED = '[\\w-]+';
const FORMS = [
  [/^#lesson:([0-9.]+)$/, ([, id]) => ({kind: 'lesson', id})],
  [/^#task:([0-9.]+)$/, ([, id]) => ({kind: 'task', id})],
  [new RegExp(`^#sheet:(${PACKED})(?:,(\\d+))?$`), ([, packed, number]) => ({kind: 'sheet', packed, number: Number(number ?? 0)})],
  [new RegExp(`^#hand:(${PACKED})$`), ([, packed]) => ({kind: 'hand', packed})],
  [new RegExp(`^#([a-z0-9_-]+|deck:${PACKED})(?:,(\\d+))?(?:,(\\d+))?(?:,(\\d+))?$`), ([, deck, core, count, other]) => (
    {kind: 'moment', deck, core: core && Number(core), count: count === undefined ? null : Number(count), other: other ? Number(other) : null})],
];

// What an address leads to; null for one that the page can't read.
export function placeOf(hash) {
  for (const [form, made] of FORMS) {
    const found = form.exec(hash);
    if (found) return made(found);
  }
  return null;
}

export function hashOf({deck, core, count, other}) {
  return `#${[deck, core, count, other].filter(part => part !== null && part !== undefined).join(',')}`;
}
