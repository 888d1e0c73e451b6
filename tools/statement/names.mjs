// Whether each name of docs/statement.html leads to what its file means: read from the sources anew, and not as tools/trust.py does it.
// A name is one that the file itself defines, or one that a `use` line of it brings in, from a file that defines it or passes it on; and it
// is no label of a record's field. Names of the standard library aren't looked into.
import fs from 'node:fs';
import path from 'node:path';
import {fileURLToPath} from 'node:url';

const TOP = path.join(path.dirname(fileURLToPath(import.meta.url)), '..', '..');
const files = new Map();

// What a file defines, and what its `use` lines bring: of each name the module and the name there; of an alias the module.
function read(file) {
  if (files.has(file)) return files.get(file);
  if (!fs.existsSync(path.join(TOP, file))) return undefined;
  const text = fs.readFileSync(path.join(TOP, file), 'utf8').replace(/(--(?= |$)|\/\/).*$/gm, '');
  const it = {own: new Set(), brought: new Map(), aliases: new Map()};
  files.set(file, it);
  for (const [, module, names, alias] of text.matchAll(/\buse ([^;{}\s]+?)(?:(?:\.|::)\{([^}]*)\}|(?: as (\S+?))?)[;\n]/g)) {
    if (alias) it.aliases.set(alias, module);
    for (const part of (names ?? '').split(',').map(name => name.trim()).filter(Boolean)) {
      const [real, other] = part.split(' as ');
      it.brought.set(other ?? real, [module, real]);
    }
    if (names === undefined && !alias) {
      const parts = module.split('::');
      it.brought.set(parts.at(-1), [parts.slice(0, -1).join('::'), parts.at(-1)]);
    }
  }
  const heads = file.endsWith('.rt')
    ? /^(?:pub(?:\(crate\))? )?(?:struct|enum|trait|fn|const|static|type) (\w+)/gm
    : /^(?!(?:unfoldable )?(?:pub )?(?:use|mod) |infix)(?:(?:abbrev|unfoldable|macro) )?(?:pub )?(?:(?:record|data) )?([^\s:(){}]+)|^  ([^\s:(){}]+) : /gm;
  for (const found of text.matchAll(heads)) it.own.add(found[1] ?? found[2]);
  return it;
}

// The file in which a name of a module is defined, as far as it can be told.
function home(module, name, from) {
  const parts = module.split(/\.|::/);
  if (['crate', 'self', 'super'].includes(parts[0])) return inCrate(from, name);
  if (parts[0].startsWith('b67')) return inCrate(parts[0], name);
  if (parts[0] !== 'Rattle' || !parts[1]?.startsWith('b67')) return undefined;
  if (parts[3] === 'declared') return inCrate(parts[1], parts.at(-1) === 'TheVariants' ? parts.at(-2) : name);
  const file = `crates/${parts.slice(1).join('/')}.antt`, it = read(file);
  if (!it || it.own.has(name)) return it && file;
  return it.brought.has(name) ? home(...it.brought.get(name), parts[1]) : undefined;
}

function inCrate(crate, name) {
  const folder = `crates/${crate}/src`;
  for (const entry of fs.existsSync(path.join(TOP, folder)) ? fs.readdirSync(path.join(TOP, folder)).sort() : []) {
    if (entry.endsWith('.rt') && read(`${folder}/${entry}`).own.has(name)) return `${folder}/${entry}`;
  }
  const passed = read(`${folder}/lib.rt`)?.brought.get(name);
  return passed && passed[0].startsWith('b67') ? inCrate(passed[0].split('::')[0], name) : undefined;
}

// The file that a name of a file means; operators are brought in with ◌ around them.
function means(file, token) {
  const it = read(file), [first, second] = token.split('.'), crate = file.split('/')[1];
  const name = {'←': '◌>>=◌', do: '◌>>◌'}[token] ?? first;
  if (it.aliases.has(first)) return home(it.aliases.get(first), second, crate);
  for (const one of [name, `◌${name}◌`]) {
    if (it.own.has(one)) return file;
    if (it.brought.has(one)) return home(...it.brought.get(one), crate);
  }
  return undefined;
}

const pieceOf = part => (typeof part === 'string' ? part : part[0]);
const textOf = line => (typeof line === 'string' ? line : line.map(pieceOf).join(''));

export function wrongNames(data) {
  const wrong = [];
  for (const [name, file, , , , lines] of data.definitions) {
    let above = '';
    for (const line of lines) {
      const over = above;
      above = textOf(line).trimEnd();
      if (typeof line !== 'string') line.forEach((part, at) => {
        if (typeof part === 'string' || part[1] < 0) return;
        const [token, target] = part, next = line[at + 1];
        if (/[{;] *$/.test(over + line.slice(0, at).map(pieceOf).join('')) && typeof next === 'string' && /^ = /.test(next)) wrong.push(`${file} ${name}: ${token} is a label`);
        const generic = file.endsWith('.rt') && /^[A-Z]\.|^[A-Z]\b/.test(token);
        if (!generic && means(file, token) !== data.definitions[target][1]) wrong.push(`${file} ${name}: ${token} is of ${means(file, token)}, not of ${data.definitions[target][1]}`);
      });
    }
  }
  return wrong;
}
