// The exercises are right by the translator, and a translator with a mistake loses points. B67 is the built program.

import {test} from 'node:test';
import assert from 'node:assert/strict';
import {spawnSync} from 'node:child_process';
import {chmodSync, mkdtempSync, readdirSync, rmSync, writeFileSync} from 'node:fs';
import {tmpdir} from 'node:os';
import {join} from 'node:path';

const path = name => new URL(name, import.meta.url).pathname;
const EXERCISES = readdirSync(path('../exercises')).map(name => path(`../exercises/${name}`)), TRANSLATOR = `node ${path('../algol.mjs')}`;
const grade = (...words) => spawnSync(process.execPath, [path('../grade.mjs'), ...words], {encoding: 'utf8'});

test('all exercises are right', () => {
  const {status, stdout} = grade(TRANSLATOR, ...EXERCISES), [, right, most] = /\n(\d+) of (\d+) points\n$/.exec(stdout);
  assert.equal(right, most, stdout);
  assert.equal(status, 0);
});

test('a wrong translator loses points, and what is no test is told', () => {
  const room = mkdtempSync(join(tmpdir(), 'grade-')), wrong = join(room, 'wrong'), file = join(room, 'a.test');
  try {
    writeFileSync(wrong, `#!/bin/sh\n${TRANSLATOR} "$1" | sed 's/^SUBT/ADD/'\n`);
    chmodSync(wrong, 0o755);
    const {status, stdout} = grade(wrong, EXERCISES[0]);
    assert.match(stdout, /: 0 of 1; run 1, in ample core: line 3 is `1.1 30` and should be `1.1 10`\n0 of 1 points\n$/);
    assert.equal(status, 1);
    for (const [text, told] of [['', 'it has no `== algol`'], ['== algol\nbegin end\n', 'it has no `== lines`'], ['== algol\nbegin end\n== algol\n', 'it has two programs']]) {
      writeFileSync(file, text);
      const found = grade(TRANSLATOR, file);
      assert.deepEqual([found.status, found.stdout], [2, `${file}: no test: ${told}\n0 of 0 points\n`]);
    }
    assert.match(grade(TRANSLATOR, room).stdout, /no test: it cannot be read/);
    for (const words of [[], [TRANSLATOR], ['', file]]) assert.equal(grade(...words).status, 2);
  } finally { rmSync(room, {recursive: true}); }
});
