// Colours of routes, and whether one can read text on them (WCAG 2.2, contrast ratio).

const READABLE = 4.5; // The contrast that level AA asks of text.

/** Six hexadecimal digits, with or without #, as three numbers; null where a text is none. */
function channels(text) {
  const found = /^#?([0-9a-f]{2})([0-9a-f]{2})([0-9a-f]{2})$/i.exec(text ?? '');
  return found && found.slice(1).map((digits) => parseInt(digits, 16) / 255);
}

/** The relative luminance, from 0 to 1. */
function luminance(rgb) {
  const [red, green, blue] = rgb.map((value) => (value <= 0.04045 ? value / 12.92 : ((value + 0.055) / 1.055) ** 2.4));
  return 0.2126 * red + 0.7152 * green + 0.0722 * blue;
}

/** The contrast of two colours, from 1 to 21. */
export function contrast(one, other) {
  const [low, high] = [luminance(channels(one)), luminance(channels(other))].sort((a, b) => a - b);
  return (high + 0.05) / (low + 0.05);
}

/** The colours of a route's badge: those of the feed where one can read them, else black or white on the route's colour. */
export function badgeColours(route) {
  const ground = channels(route?.color) ? `#${route.color.replace('#', '')}` : '#4a5560';
  const given = channels(route?.textColor) ? `#${route.textColor.replace('#', '')}` : '#ffffff';
  if (contrast(given, ground) >= READABLE) return { ground, text: given };
  return { ground, text: contrast('#ffffff', ground) >= contrast('#000000', ground) ? '#ffffff' : '#000000' };
}
