// What the agents like, filled in by hand.
const TASTES = {
  2: [{ ends: [1, 2], heights: [3, 1] }, { ends: [2], heights: [1] }],
  3: [{ ends: [1, 3, 6], heights: [2, 1, 1] }, { ends: [2, 6], heights: [3, 1] }, { ends: [3, 4, 6], heights: [1, 0, 2] }],
};
const tastesFor = count => TASTES[count] || Array.from({ length: count }, (_, at) =>
  ({ ends: [2, 4, 6, 8], heights: [1 + at % 3, 1 + (at * 2 + 1) % 4, 1 + (at + 2) % 3, 1 + at % 2] }));
let tasteRows = [];

function setTastes(tastes) {
  tasteRows = tastes.map((it, at) => {
    const field = what =>
      el('input', { value: it[what].join(' '), 'aria-label': `Agent ${at + 1}: ${what}`, autocomplete: 'off', oninput: drawTastes });
    return { ends: field('ends'), heights: field('heights'), room: el('div', { class: 'picture' }) };
  });
  $('tastes').replaceChildren(...tasteRows.map((row, at) => el('fieldset', { class: 'taste' }, el('legend', {}, `Agent ${at + 1}`),
    el('span', {}, 'ends'), row.ends, el('span', {}, 'heights'), row.heights, row.room)));
  drawTastes();
}
// As many tastes as the text has agents: where it says another number than before, other ones.
function fitTastes() {
  const count = agentsOf(source());
  if (count && count !== tasteRows.length) setTastes(tastesFor(count));
}
const numbersIn = field => field.value.split(/[\s,;]+/).filter(it => it !== '');
const tasteOf = row => ({ ends: numbersIn(row.ends), heights: numbersIn(row.heights) });
const tastes = () => tasteRows.map(tasteOf);

function drawTastes() {
  const room = $('tastes').clientWidth ? $('tastes') : $('editor');
  for (const row of tasteRows) {
    const it = tasteOf(row);
    const isRight = it.ends.length === it.heights.length && it.ends.length > 0
      && [...it.ends, ...it.heights].every(x => /^\d{1,18}$/.test(x));
    for (const field of [row.ends, row.heights]) field.setAttribute('aria-invalid', String(!isRight));
    const hint = el('span', { class: 'hint' }, 'As many whole numbers in both rows.');
    row.room.replaceChildren(isRight ? drawnIn(room, 24, () => stepChart(it)) : hint);
  }
}
$('tastes-box').addEventListener('toggle', drawTastes);

// The valuations as they stand in a file. What is no number goes in quotes, so that the program refuses it.
function tastesText() {
  const list = numbers => `[${numbers.map(it => /^(0|[1-9]\d*)$/.test(it) ? it : JSON.stringify(it)).join(',')}]`;
  return `[${tastes().map(it => `{"ends":${list(it.ends)},"heights":${list(it.heights)}}`).join(',')}]`;
}
