// What is asked of the program, and how its answer comes back.
const PROTOCOL = 'protocol.slice', TASTES_FILE = 'tastes.json', CERTIFICATE = 'certificate';
let turn = 0;       // counts what was asked, so that a late answer to an earlier one is dropped

const nameOf = words => (/\bprotocol\s+([a-z][a-z0-9_]*)/.exec(words.replace(/#[^\n]*/g, '')) || [0, 'protocol'])[1];

function busy(words) {
  $('progress').hidden = words === null;
  $('progress-words').textContent = words || '';
  $('stop').disabled = words === null;
  for (const it of document.querySelectorAll('[data-do]')) it.disabled = words !== null || !compiled;
}
function answer(...parts) {
  $('answer').classList.remove('stale');
  $('answer').replaceChildren(...parts.flat(9).filter(it => it !== null && it !== undefined));
  const first = $('answer').querySelector('.verdict');
  $('live').textContent = first ? [...first.querySelectorAll('strong, p')].map(it => it.textContent).join(' ') : '';
  if (first && innerWidth <= 900) first.scrollIntoView({ block: 'start' });
}
const stale = () => $('answer').classList.toggle('stale', Boolean($('answer').querySelector('.verdict')));
function stop(words) {
  if (!worker) return;
  halt();
  turn++;
  busy(null);
  if (words) answer(verdict('warn', 'Stopped', words));
}

// Runs one piece of work; `work` is given how to run the program, and gives what to show.
async function ask(doing, work) {
  stop();
  const mine = ++turn, begun = performance.now();
  let goals = 0;
  const tell = () => {
    const told = goals ? `${counted(goals)} ${doing}, ` : '';
    if (mine === turn) busy(`Working: ${told}${seconds(performance.now() - begun)} so far`);
  };
  const onProgress = it => { goals = it.goals; tell(); };
  const clock = setInterval(tell, 250);
  marks = [];
  paint();
  busy('Working');
  try {
    const parts = await work((words, files) => runProgram(words, { [PROTOCOL]: bytesOf(source()), ...files }, onProgress));
    if (mine === turn) answer(...parts);
  } catch (error) {
    if (mine === turn) answer(broken(String(error.message || error)));
  } finally {
    clearInterval(clock);
    if (mine === turn) busy(null);
  }
}
function footOf(what, done) {
  const isSaved = what === 'verify' && done.status === 0;     // as a certificate
  const saves = button(`Save what the program wrote (${counted(done.out.length)} bytes)`, () => save(`${what}.jsonl`, done.out));
  return el('p', { class: 'hint after' }, `${seconds(done.ms)}, exit status ${done.status}. `, isSaved ? null : saves);
}

const COMMANDS = {
  check: { words: [PROTOCOL], show: line => checked(line) },
  run: { words: [PROTOCOL, TASTES_FILE], show: line => ran(line, tastes()) },
  paths: { words: [PROTOCOL], show: (line, done) => goals(done.out, agentsOf(source()), line.goals) },
  verify: { words: [PROTOCOL], show: verified },
};
async function verified(line, done, run) {
  if (line.closing === 'envy-free' && done.status === 0) return envyFree(line, done.out);
  const own = lastLine(done.out);
  if (line.closing !== 'counterexample' || done.status !== 1) throw new Error(`it wrote what this page doesn't know: ${own}`);
  const again = await run(['replay', PROTOCOL, TASTES_FILE], { [TASTES_FILE]: bytesOf(own) });
  return counterexample(line, readLine(lastLine(again.out)), own);
}
function start(what) {
  keepAddress();
  return ask(what === 'paths' ? 'goals written' : 'goals done', async run => {
    const command = COMMANDS[what];
    const done = await run([what, ...command.words], { [TASTES_FILE]: bytesOf(tastesText()) });
    const line = readLine(lastLine(done.out));
    return [...[line.refused ? refusal(line) : await command.show(line, done, run)].flat(), footOf(what, done)];
  });
}
function checkCertificate(bytes, whose) {
  return ask('goals done', async run => {
    const done = await run(['certify', PROTOCOL, CERTIFICATE], { [CERTIFICATE]: bytes });
    const line = readLine(lastLine(done.out));
    return [line.refused ? refusal(line) : certified(line, whose), footOf('certify', done)];
  });
}

for (const it of document.querySelectorAll('[data-do]')) it.addEventListener('click', () => start(it.dataset.do));
$('stop').addEventListener('click', () => stop('Nothing is said of the protocol.'));
text.addEventListener('input', () => {
  marks = [];
  $('pick').value = 'own';      // an example that was changed is the reader's own
  $('about').hidden = true;
  stale();
  paint();
  fitTastes();
});
document.addEventListener('keydown', event => {
  if (event.key === 'Enter' && (event.ctrlKey || event.metaKey) && compiled) { event.preventDefault(); start('verify'); }
  if (event.key === 'Escape') stop('Nothing is said of the protocol.');
});
$('certificate').addEventListener('change', async () => {
  const [file] = $('certificate').files;
  if (file && compiled) await checkCertificate(new Uint8Array(await file.arrayBuffer()), `the certificate in ${file.name}`);
  $('certificate').value = '';
});
