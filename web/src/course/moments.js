// What a task of finding may ask of a state: which operator was made, what was stored, what came into core and left it.
import {operatorParts} from '../words/reading.js';

export const into = cell => state => state.changes.some(it => it.into === cell);
export const made = name => state => Boolean(state.operator) && operatorParts(state.operator)[0] === name;
export const card = number => state => state.operator?.card === number;
export const deepest = state => Math.max(0, ...state.tasks.map(task => task.records.length));
export const outOfCore = state => state.changes.some(it => it.kind === 'out' && it.text.startsWith('array'));
export const turned = state => state.changes.some(it => it.kind === 'turn');
export const waits = name => state => state.tasks.some(task => task.name === name && task.condition !== 'ready');
// The cells of the topmost record of a task.
export const topCells = (state, name) => state.tasks.find(task => task.name === name)?.records.at(-1)?.cells ?? [];
