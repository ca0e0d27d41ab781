// The examples, and how the page begins.
const EMPTY = 'protocol mine agents 2 {\n  cut 1 cake at 1/2 as l, r;\n\n}\n';

for (const group of [...new Set(GALLERY.map(it => it.group))]) {
  const options = GALLERY.map((it, at) => it.group === group ? el('option', { value: at }, it.title) : null);
  $('pick').append(el('optgroup', { label: group }, options));
}
$('pick').append(el('option', { value: 'own' }, 'One of your own'));

function takeText(words, choice, about) {
  stop();
  setSource(words);
  $('pick').value = choice;
  $('about').textContent = about;
  $('about').hidden = !about;
  $('linked').hidden = true;
  const count = agentsOf(words) || 2;
  setTastes(tastesFor(count));
  answer(el('p', { class: 'hint' }, 'Guess first: can anybody end up envying anybody? Then press ', el('b', {}, 'Verify'), '.'));
}
const takeExample = at => takeText(GALLERY[at].text, String(at), GALLERY[at].about);
$('pick').addEventListener('change', async () => {
  const choice = $('pick').value;
  await keepAddress();      // so that going back brings the text back that was there
  if (choice === 'own') takeText(EMPTY, 'own', '');
  else takeExample(Number(choice));
  history.pushState(null, '', await hashOf());
});

async function begin() {
  let wanted = null;
  document.body.dataset.done = 'no';
  try {
    wanted = await takeAddress();
  } catch (error) {
    takeExample(0);
    answer(verdict('warn', 'The address holds no protocol', 'It may have been cut off on its way.', String(error.message || error)));
  }
  document.body.dataset.ready = 'yes';
  if (wanted === 'run') $('tastes-box').open = true;
  if (wanted && compiled) await start(wanted);
  document.body.dataset.done = 'yes';
}
(async () => {
  busy(null);
  try {
    await loadEngine();
    busy(null);
  } catch (error) {
    setSource(GALLERY[0].text);
    const why = String(error.message || error);
    return answer(verdict('warn', 'This browser can’t run the program', 'Nothing can be said of a protocol here.', why));
  }
  addEventListener('hashchange', () => { if (holdsText(location.hash)) begin(); });
  await begin();
})();
