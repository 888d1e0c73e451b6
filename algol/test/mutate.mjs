// Mutations of programs: of characters and tokens, and of names, types and operators for others, which leaves most programs well formed.

const WORDS = ('begin end ; := ( ) [ ] : , if then else for step until while do go to procedure value integer Boolean array true false comment and or not imp eqv div mod ^ + - * < <= = >= > <> ' +
  'process read print wait cause await status printrow abs sign nomore real own string switch label x A f 0 1 549755813888 3.5 1e9 $STACK $TEXT $ " \' { × ÷ é 😀 \0 / ** constructor __proto__').split(' ');
const RESERVED = /^(begin|end|if|then|else|for|step|until|while|do|go|to|goto|procedure|value|integer|boolean|array|true|false|comment|and|or|not|imp|eqv|div|mod|process|own|switch|label|stack|limit|data|text|job)$/i;
const KINDS = [/^[A-Za-z]\w*$/, /^(integer|Boolean)$/, /^\d+$/, /^ ?[-+*<>=] ?$/];

export class Random {
  constructor(seed) { this.state = seed * 2654435761 >>> 0 || 1; for (let k = 0; k < 9; k++) this.n(2); }
  n(m) { let x = this.state; x ^= x << 13; x >>>= 0; x ^= x >>> 17; x ^= x << 5; this.state = x >>>= 0; return x % m; }
  of(list) { return list[this.n(list.length)]; }
}

// What is done to a text at a place, by characters or by tokens.
const CHANGES = [
  (text, r, at) => text.slice(0, at) + text.slice(at + r.n(12)),
  (text, r, at) => `${text.slice(0, at)} ${r.of(WORDS)} ${text.slice(at)}`,
  (text, r, at) => text.slice(0, at) + String.fromCharCode(r.n(128)) + text.slice(at + 1),
  (text, r) => { const tokens = text.split(/\b/); tokens[r.n(tokens.length)] = r.of(WORDS); return tokens.join(''); },
  (text, r) => { const tokens = text.split(/\b/), [i, j] = [r.n(tokens.length), r.n(tokens.length)]; [tokens[i], tokens[j]] = [tokens[j], tokens[i]]; return tokens.join(''); },
  (text, r) => { const tokens = text.split(/\b/), j = r.n(tokens.length); tokens.splice(r.n(tokens.length), 0, ...tokens.slice(j, j + r.n(20))); return tokens.join(''); },
  (text, r) => { const tokens = text.split(/\b/); tokens.splice(r.n(tokens.length), 1); return tokens.join(''); },
];

// Puts names, types, numbers or operators in the place of others.
function renamed(text, r) {
  const tokens = text.split(/\b/);
  for (let k = 1 + r.n(5); k > 0; k--) {
    const kind = r.of(KINDS), found = tokens.map((t, i) => [t, i]).filter(([t]) => kind.test(t) && (kind !== KINDS[0] || !RESERVED.test(t)));
    if (!found.length) continue;
    const [, i] = r.of(found), [t] = r.of(found);
    tokens[i] = kind === KINDS[1] && !r.n(3) ? `${tokens[i]} procedure` : t;
  }
  return tokens.join('');
}

// A text with some changes.
export function mutated(text, r) {
  if (r.n(2)) return renamed(text, r);
  for (let k = 1 + r.n(4); k > 0; k--) text = r.of(CHANGES)(text, r, r.n(text.length + 1));
  return text;
}
