// Marks: images of one run that are kept, so that a state is made from one that is near, not from the start. The nearer to where one looks, the
// denser they are: on the way to a count marks are laid at distances from it that grow eightfold. So a step back is as quick as one forth,
// and to go back further costs about as many operators as one goes back.
const [MOST_MARKS, MOST_BYTES, GROWTH] = [8, 1 << 25, 8];

export class Marks {
  // `reach` is the least distance between two, in operators; `bytes` are those of one.
  constructor(reach, bytes) {
    Object.assign(this, {reach, most: Math.min(MOST_MARKS, Math.floor(MOST_BYTES / bytes)), kept: []});
  }

  // The nearest one at or below a count; undefined where there is none.
  below(count) {
    return this.kept.findLast(it => it.count <= count);
  }

  // The counts at which marks are to be laid on the way to a count, in order; none if there is a mark near it.
  wayTo(count) {
    const base = this.below(count)?.count ?? 0, found = [];
    for (let by = this.reach; count - by >= base + this.reach && found.length < this.most; by *= GROWTH) found.unshift(count - by);
    return found;
  }

  // Keeps a mark that was laid on the way to `here`. If there are too many then, one goes that is near its neighbours and far from `here`.
  keep(mark, here) {
    this.kept = [...this.kept, mark].sort((a, b) => a.count - b.count);
    if (this.kept.length <= this.most) return;
    const uses = this.kept.map(({count}, k) => {
      const gap = (this.kept[k + 1]?.count ?? Math.max(here, count) + this.reach) - (this.kept[k - 1]?.count ?? 0);
      return gap / (Math.abs(here - count) + this.reach);
    });
    this.kept.splice(uses.indexOf(Math.min(...uses)), 1);
  }
}
