/** How large a picture for a slide is at most, in pixels. */
export const SLIDE = { width: 1920, height: 1080 };

/** Whatever is wanted, no picture is shrunk to less. */
const NARROWEST = 200;

/**
 * How much a picture is shrunk to the width that is wanted, or to a slide if none is.
 * @param {{width: number, height: number}} picture @param {number} [wanted]
 */
export function shrunk({ width, height }, wanted) {
  return Math.min(1, wanted === undefined ? Math.min(SLIDE.width / width, SLIDE.height / height) : Math.max(NARROWEST, wanted) / width);
}
