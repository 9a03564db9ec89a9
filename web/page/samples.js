// A mesh that is quicker made than stored: a Klein bottle, a surface with one side.

/** The text of a Klein bottle of `rounds` by `steps` squares, as the figure eight that is turned half a round. */
export function kleinBottle(rounds, steps) {
  const rows = ['OFF', `${rounds * steps} ${rounds * steps} 0`], radius = 2.2;
  for (let i = 0; i < rounds; i++) {
    for (let j = 0; j < steps; j++) {
      const u = (2 * Math.PI * i) / rounds, v = (2 * Math.PI * j) / steps, c = Math.cos(u / 2), s = Math.sin(u / 2);
      const wide = radius + c * Math.sin(v) - s * Math.sin(2 * v), high = s * Math.sin(v) + c * Math.sin(2 * v);
      rows.push([wide * Math.cos(u), high, wide * Math.sin(u)].map((x) => x.toFixed(6)).join(' '));
    }
  }
  // Behind the last round the first one follows, run the other way.
  const at = (i, j) => (i < rounds ? i * steps + (j % steps) : (2 * steps - j) % steps);
  for (let i = 0; i < rounds; i++) {
    for (let j = 0; j < steps; j++) rows.push(`4 ${at(i, j)} ${at(i + 1, j)} ${at(i + 1, j + 1)} ${at(i, j + 1)}`);
  }
  return rows.join('\n') + '\n';
}
