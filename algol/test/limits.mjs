// For each limit of the machine programs that grow by a number.

const many = (n, make, by = '; ') => Array.from({length: n}, (_, k) => make(k)).join(by);
const nest = (n, inner) => n ? `procedure p${n}; begin integer v${n}; ${nest(n - 1, inner)} end` : inner;
const blocks = (n, inner) => n ? `begin integer array A[0:1]; ${blocks(n - 1, inner)} end` : inner;
const thunks = n => n ? `f(${thunks(n - 1)} + 1)` : 'x';

export const SHAPES = {
  'levels, procedures': n => `begin integer x;\n ${nest(n, 'x := 1')}; x := 2 end`,
  'levels, blocks with arrays': n => `begin integer x;\n ${blocks(n, 'x := 1')} end`,
  'levels, thunks': n => `begin integer x; integer procedure f(a); integer a; f := a;\n x := ${thunks(n)} end`,
  'cells at level 2': n => `begin integer ${many(n, k => `x${k}`, ', ')};\n x${n - 1} := read; print(x${n - 1}) end`,
  'cells at level 2, seen from level 4': n => `begin integer ${many(n, k => `x${k}`, ', ')}; procedure p; begin procedure q; x${n - 1} := read;\n q end; p end`,
  'cells at level 2, seen from level 18': n => `begin integer ${many(n, k => `x${k}`, ', ')};\n ${nest(16, `x${n - 1} := read`)}; p16 end`,
  'parameters': n => `begin procedure p(${many(n, k => `a${k}`, ', ')}); integer ${many(n, k => `a${k}`, ', ')};\n print(a${n - 1}); p(${many(n, () => '1', ', ')}) end`,
  'words of a segment': n => `begin integer x; x := read;\n ${many(n, () => 'x := x + 1')} end`,
  'segments, procedures': n => `begin ${many(n, k => `procedure p${k};`, ';\n')}; p0 end`,
  'thunks of one record': n => `begin integer x; procedure p(a); integer a; print(a); x := 1;\n ${many(n, () => 'p(x + 1)')} end`,
};
