// What assistive technology needs, tested in the page: names, references, headings, contrast. The list `faults` says what is wrong. The rules are
// those of WCAG 2.2 (1.3.1, 1.4.3, 2.4.6, 3.1.1, 4.1.2).
const faults = [];
const say = (rule, node) => faults.push(`${rule}: ${node.outerHTML.slice(0, 120)}`);

function isSeen(node) {
  const box = node.getBoundingClientRect();
  const style = getComputedStyle(node);
  return box.width > 0 && box.height > 0 && style.visibility === 'visible' && !node.closest('[hidden]');
}

function isSpokenOnly(node) {
  return node.closest('.spoken, .skip, .top h1') !== null && node.getBoundingClientRect().width <= 1.5;
}

function nameOf(node) {
  const label = node.getAttribute('aria-label') ?? node.getAttribute('aria-labelledby')?.split(' ').map((id) => document.getElementById(id)?.textContent ?? '').join(' ');
  if (label) return label.trim();
  if (node.labels?.length > 0) return [...node.labels].map((one) => one.textContent).join(' ').trim();
  return node.textContent.trim();
}

for (const node of document.querySelectorAll('button, a[href], input, select, summary, [role=img], [role=group], [role=listbox], [role=option], nav, form, section')) {
  if (isSeen(node) && nameOf(node) === '') say('no name', node);
}
for (const node of document.querySelectorAll('input, select')) {
  if (isSeen(node) && !(node.labels?.length > 0) && !node.hasAttribute('aria-label')) say('no label', node);
}
for (const attribute of ['aria-controls', 'aria-describedby', 'aria-labelledby', 'aria-activedescendant', 'for']) {
  for (const node of document.querySelectorAll(`[${attribute}]`)) {
    for (const id of node.getAttribute(attribute).split(/\s+/)) if (!document.getElementById(id)) say(`${attribute} of none`, node);
  }
}
const ids = [...document.querySelectorAll('[id]')].map((node) => node.id);
for (const id of new Set(ids)) if (ids.filter((other) => other === id).length > 1) faults.push(`id twice: ${id}`);
if (!document.documentElement.lang) faults.push('no language');
if (!document.title) faults.push('no title');
if (document.querySelectorAll('h1').length !== 1) faults.push('not one h1');
if (document.querySelectorAll('main').length !== 1) faults.push('not one main');
if (document.querySelector('[tabindex]:not([tabindex="0"]):not([tabindex="-1"])')) faults.push('a tabindex above 0');
let level = 0;
for (const node of document.querySelectorAll('h1, h2, h3, h4')) {
  const own = Number(node.tagName[1]);
  if (own > level + 1) say('a heading skips a level', node);
  level = own;
}

function colour(text) {
  const [red, green, blue, alpha = 1] = text.match(/[\d.]+/g)?.map(Number) ?? [0, 0, 0, 0];
  return { rgb: [red, green, blue], alpha: text === 'transparent' || text === 'none' ? 0 : alpha };
}

function over(front, back) {
  return front.rgb.map((value, place) => value * front.alpha + back[place] * (1 - front.alpha));
}

function groundOf(node) {
  if (node === null) return [255, 255, 255];
  const own = colour(getComputedStyle(node).backgroundColor);
  return own.alpha === 1 ? own.rgb : over(own, groundOf(node.parentElement));
}

function luminance(rgb) {
  const [red, green, blue] = rgb.map((value) => value / 255).map((value) => (value <= 0.04045 ? value / 12.92 : ((value + 0.055) / 1.055) ** 2.4));
  return 0.2126 * red + 0.7152 * green + 0.0722 * blue;
}

const walker = document.createTreeWalker(document.body, NodeFilter.SHOW_TEXT);
while (walker.nextNode()) {
  const node = walker.currentNode.parentElement;
  if (walker.currentNode.textContent.trim() === '' || !isSeen(node) || isSpokenOnly(node) || node.closest('noscript, script, option, title, :disabled')) continue;
  const style = getComputedStyle(node);
  const ground = groundOf(node);
  const front = over(colour(node instanceof SVGElement ? style.fill : style.color), ground);
  const [low, high] = [luminance(front), luminance(ground)].sort((one, other) => one - other);
  const size = parseFloat(style.fontSize);
  const least = size >= 24 || (size >= 18.66 && Number(style.fontWeight) >= 700) ? 3 : 4.5;
  const contrast = (high + 0.05) / (low + 0.05);
  if (contrast < least) say(`contrast ${contrast.toFixed(2)}`, node);
}
