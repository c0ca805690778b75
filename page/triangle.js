// The correlation triangle: the mean sizes of sums over the offset of the code.

/** @typedef {import('./passes.js').Pass} Pass */

// Half chips of a code.
const HALF_CHIPS = 2046;

/**
 * Points of the correlation triangle of a satellite: the mean sizes of the sums of its slots over
 * the offset of their codes in chips.
 *
 * Slots that hold it are counted from the middle one of their half chips. One that tracks it
 * is at 0.
 * @param {Pass[]} passes those of one satellite
 * @returns {{ offset: number, size: number }[]}
 */
export function triangle(passes) {
  const used = passes.filter((it) => it.wholes > 0);
  const held = used.filter((it) => it.isHeld && it.halfChip !== null);
  const first = Math.min(...held.map((it) => it.halfChip ?? 0));
  /** @param {Pass} it */
  const turned = (it) => (((it.halfChip ?? 0) - first + HALF_CHIPS / 2) % HALF_CHIPS)
    - HALF_CHIPS / 2;
  const places = [...new Set(held.map(turned))].sort((a, b) => a - b);
  const middle = places[Math.floor((places.length - 1) / 2)] ?? 0;
  /** @type {Map<number, { size: number, dumps: number }>} */
  const groups = new Map();
  for (const pass of held.length ? held : used) {
    const place = held.length ? turned(pass) - middle : 0;
    pass.sizes.forEach((size, at) => {
      const group = groups.get(place + at - 1) ?? { size: 0, dumps: 0 };
      groups.set(place + at - 1, { size: group.size + size, dumps: group.dumps + pass.wholes });
    });
  }
  return [...groups].sort((a, b) => a[0] - b[0])
    .map(([at, { size, dumps }]) => ({ offset: at / 2, size: size / dumps }));
}
