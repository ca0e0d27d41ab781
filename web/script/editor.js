// The editor: a text field over the same text in colours. Remarks at the head of a protocol can be folded away; they are
// part of the text all the same, so that places and what is verified stay as they are.
const text = $('text'), back = $('back'), gutter = $('gutter');
const RESERVED = new Set(('agent agents as at call cut else from give if join let number pick piece procedure protocol to value'
  + ' yield').split(' '));
const LONG_HEAD = 4;            // lines of remarks, from which on they are folded
let folded = '';                // the remarks that aren't shown
let marks = [];                 // { from, to, isFirst }, in UTF-16 units of the whole text

const source = () => folded + text.value;
const linesIn = words => words.split('\n').length - 1;
const headOf = words => /^(?:[ \t]*(?:#[^\n]*)?\n)*/.exec(words)[0];

function setSource(words) {
  folded = '';
  text.value = words;
  marks = [];
  fold(linesIn(headOf(words)) >= LONG_HEAD);
  text.scrollTop = text.scrollLeft = 0;
}
function fold(isFolded) {
  const whole = source(), head = headOf(whole);
  folded = isFolded ? head : '';
  text.value = whole.slice(folded.length);
  paint();
}
function paintFold() {
  const head = folded || headOf(text.value), lines = linesIn(head);
  const first = head.split('\n').map(line => line.replace(/^[ \t]*#?[ \t]*/, '')).find(line => line) || '';
  $('fold').hidden = lines < LONG_HEAD;
  $('fold').setAttribute('aria-expanded', String(!folded));
  $('fold').textContent = folded ? `▸ ${lines} lines of remarks: ${first} …` : `▾ Fold the ${lines} lines of remarks`;
}
$('fold').addEventListener('click', () => { fold(!folded); text.scrollTop = 0; });

// The place of a byte of the text, in UTF-16 units.
function unitAt(words, byte) {
  let at = 0, bytes = 0;
  for (const sign of words) {
    if (bytes >= byte) break;
    const code = sign.codePointAt(0);
    bytes += code < 0x80 ? 1 : code < 0x800 ? 2 : code < 0x10000 ? 3 : 4;
    at += sign.length;
  }
  return at;
}
function lineAndColumn(unit) {
  const before = source().slice(0, unit), begin = before.lastIndexOf('\n') + 1;
  return { line: linesIn(before) + 1, column: [...before.slice(begin)].length + 1 };
}

// The text in colours, with what is marked.
function paint() {
  const out = document.createDocumentFragment(), shift = folded.length;
  const add = (part, kind, at) => {
    const mark = marks.find(it => it.from < at + part.length && at < it.to);
    if (!mark) return out.append(kind ? el('i', { class: kind }, part) : part);
    const from = Math.max(0, mark.from - at), to = Math.min(part.length, mark.to - at);
    if (from > 0) add(part.slice(0, from), kind, at);
    out.append(el('mark', { class: mark.isFirst ? 'first' : null }, part.slice(from, to)));
    if (to < part.length) add(part.slice(to), kind, at + to);
  };
  for (const { 0: part, index } of text.value.matchAll(/#[^\n]*|[a-z][a-z0-9_]*|\d+|[^#a-z\d]+/g)) {
    add(part, part[0] === '#' ? 'r' : RESERVED.has(part) ? 'w' : /^\d/.test(part) ? 'n' : null, index + shift);
  }
  out.append('\n');
  back.replaceChildren(out);
  paintGutter();
  paintFold();
  follow();
}
function paintGutter() {
  const marked = new Set(marks.map(mark => lineAndColumn(mark.from).line));
  const first = linesIn(folded) + 1, count = linesIn(text.value) + 1;
  const numbers = Array.from({ length: count }, (_, at) => first + at);
  gutter.replaceChildren(...numbers.flatMap(at => [marked.has(at) ? el('b', {}, `▸${at}`) : `${at}`, '\n']));
  $('editor').style.setProperty('--lines', String(count));
}
function follow() {
  back.scrollTop = gutter.scrollTop = text.scrollTop;
  back.scrollLeft = text.scrollLeft;
}
text.addEventListener('scroll', follow);

// Marks bytes of the text, each to the end of its word.
function markBytes(places) {
  const whole = source();
  marks = places.map(({ byte, isFirst }) => {
    const from = Math.min(unitAt(whole, byte), whole.length), word = /^([a-z0-9_]+|[\s\S])/u.exec(whole.slice(from));
    return { from, to: from + (word ? word[0].length : 0), isFirst };
  });
  if (folded && marks.some(mark => mark.from < folded.length)) fold(false);
  else paint();
  return marks;
}
function goTo(mark) {
  const at = mark.from - folded.length;
  text.focus();
  text.setSelectionRange(at, at + mark.to - mark.from);
  const row = parseFloat(getComputedStyle(text).lineHeight);
  text.scrollTop = Math.max(0, (linesIn(text.value.slice(0, at)) - 4) * row);
}

// How many agents the text says that it has.
function agentsOf(words) {
  const found = /\bagents\s+(\d+)/.exec(words.replace(/#[^\n]*/g, ''));
  return found ? Math.min(16, Math.max(1, Number(found[1]))) : null;
}
