// Elements of the page, made in one call each.
const $ = id => document.getElementById(id);

function filled(made, attributes, children) {
  for (const [key, value] of Object.entries(attributes)) {
    if (key.startsWith('on')) made.addEventListener(key.slice(2), value);
    else if (value !== null && value !== undefined && value !== false) made.setAttribute(key, value === true ? '' : value);
  }
  made.append(...children.flat(9).filter(it => it !== null && it !== undefined));
  return made;
}
const el = (tag, attributes = {}, ...children) => filled(document.createElement(tag), attributes, children);
const SVG = 'http://www.w3.org/2000/svg';
const svg = (tag, attributes = {}, ...children) => filled(document.createElementNS(SVG, tag), attributes, children);
const button = (words, press, kind = 'small') => el('button', { type: 'button', class: kind, onclick: press }, words);

// Words in which `these` are code.
const rich = words => words.split('`').map((part, at) => at % 2 ? el('code', {}, part) : part);

const upper = words => words[0].toUpperCase() + words.slice(1);
const counted = number => number.toLocaleString('en');
const seconds = ms => ms < 1000 ? `${Math.max(1, Math.round(ms))} ms` : `${(ms / 1000).toFixed(1)} s`;
const bytesOf = words => new TextEncoder().encode(words);
const wordsOf = bytes => new TextDecoder().decode(bytes);
