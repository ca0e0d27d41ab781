// Drives the page as a new user would: node drive.mjs PAGE [SHOTS]. Pictures go into the folder SHOTS, where it is named. A
// line for what isn't as it should be, and at last how many things were looked at; status 1 where one was wrong.
import { mkdirSync, mkdtempSync, rmSync, writeFileSync } from 'node:fs';
import { tmpdir } from 'node:os';
import { join } from 'node:path';
import { withBrowser } from './browser.mjs';

const [page, shots] = process.argv.slice(2);
if (shots) mkdirSync(shots, { recursive: true });
const room = mkdtempSync(join(tmpdir(), 'slice-drive-'));
const SCREENS = {
  desktop: { width: 1280, height: 900 },
  dark: { width: 1280, height: 900, dark: true },
  phone: { width: 390, height: 844 },
  'phone-dark': { width: 390, height: 844, dark: true },
};
let looked = 0, wrong = 0;
function expect(what, seen, wanted) {
  looked++;
  const isRight = wanted instanceof RegExp ? wanted.test(seen) : seen === wanted;
  if (isRight) return;
  wrong++;
  console.log(`page: ${what}: it says ${JSON.stringify(seen)}, and not ${wanted}`);
}

const TITLE = `(document.querySelector('#answer .verdict strong')?.textContent || '')`;
const SCOPE = `(document.querySelector('#answer .scope')?.textContent || '')`;
// What each example should answer comes from the literature, as docs/GALLERY.md tells it.
const EXAMPLES = [
  ['half.slice', 'verify', /^Not fair: agent 2 can envy agent 1$/, /one run/],
  ['cut_and_choose.slice', 'verify', /^Envy-free$/, /all tastes: all 6 ways/],
  ['half.slice', 'run', /^With these tastes nobody envies anybody$/, /one run/],
  ['envy.slice', 'run', /^Agent 1 envies agent 2$/, /one run/],
  ['stuck.slice', 'run', /^The run is stuck at query 1$/, /one run/],
  ['cut_and_choose.slice', 'paths', /^6 goals/, /Nothing is decided/],
  ['gallery/selfridge_conway.slice', 'check', /keeps the rules/, /text alone/],
  ['gallery/selfridge_conway.slice', 'verify', /^Envy-free$/, /all tastes: all 2,516 ways/],
  ['gallery/selfridge_conway.slice', 'run', /nobody envies/, /one run/],
  ['gallery/lone_divider.slice', 'verify', /^Not fair: agent 2 can envy agent 3$/, /one run/],
  ['gallery/must_trim.slice', 'verify', /^Not fair: a run can get stuck$/, /one run/],
  ['gallery/even_paz.slice', 'verify', /^Not fair: agent 2 can envy agent 3$/, /one run/],
];
const write = words => `const field = document.getElementById('text');
  field.value = ${JSON.stringify(words)};
  field.dispatchEvent(new Event('input'));`;
const choose = (it, value) => it.run(`const pick = document.getElementById('pick');
  pick.value = '${value}';
  pick.dispatchEvent(new Event('change'));`);
const pressed = what => `document.querySelector('[data-do=${what}]').click();`;

// Letters that stand out too little from what is behind them, by the ratio of WCAG: 4.5 for text.
const FAINT = `
  const canvas = document.createElement('canvas').getContext('2d', { willReadFrequently: true });
  const parts = colour => {
    canvas.clearRect(0, 0, 1, 1);
    canvas.fillStyle = colour;
    canvas.fillRect(0, 0, 1, 1);
    return [...canvas.getImageData(0, 0, 1, 1).data];
  };
  const linear = x => x <= .03928 ? x / 12.92 : ((x + .055) / 1.055) ** 2.4;
  const light = ([r, g, b]) => .2126 * linear(r / 255) + .7152 * linear(g / 255) + .0722 * linear(b / 255);
  const behind = it => {
    const colour = it ? parts(getComputedStyle(it).backgroundColor) : [255, 255, 255, 255];
    return colour[3] > 250 ? colour : behind(it.parentElement);
  };
  const hasWords = it => [...it.childNodes].some(node => node.nodeType === 3 && node.data.trim());
  const found = new Set();
  for (const it of document.querySelectorAll('body *')) {
    if (!hasWords(it) || !it.checkVisibility() || it.closest('script, :disabled, .sr, svg, #text, #answer.stale')) continue;
    const [dim, bright] = [light(parts(getComputedStyle(it).color)), light(behind(it))].sort((a, b) => a - b);
    const ratio = (bright + .05) / (dim + .05);
    if (ratio < 4.5) found.add(it.tagName + '.' + it.className + ' ' + ratio.toFixed(1) + ' ' + it.textContent.slice(0, 20));
  }
  return [...found].join('; ');`;

async function examples(it, kind) {
  for (const [file, what, title, scope] of EXAMPLES) {
    const name = `${kind}-${file.replace(/.*\/|\.slice/g, '')}-${what}`;
    await it.open(`#example=${file}&do=${what}`);
    await it.until(`document.body.dataset.done === 'yes'`, 120);
    expect(name, await it.run(`return ${TITLE}`), title);
    expect(`${name}, for whom`, await it.run(`return ${SCOPE}`), scope);
    expect(`${name}, how wide the page is`, await it.run('return document.documentElement.scrollWidth <= innerWidth'), true);
    expect(`${name}, faint letters`, await it.run(FAINT), '');
    if (shots) await it.shot(join(shots, `${name}.png`));
  }
}

// From an own protocol with a mistake in it to a verdict: keys and clicks alone.
async function newUser(it, kind) {
  const says = () => it.run(`return ${TITLE}`);
  await it.open();
  await it.until(`document.body.dataset.done === 'yes'`);
  await choose(it, 'own');
  await it.until(`location.hash.startsWith('#protocol=')`);
  await it.run(write(''));
  const steps = ['# é comes before', 'cut 1 cake at 1/2 as l, r;', 'give l to 1;', 'give l to 2;'];
  await it.type('#text', `protocol mine agents 2 {\n${steps.map(step => `  ${step}\n`).join('')}}\n`);
  await it.press('[data-do=verify]');
  await it.until(TITLE);
  expect(`${kind} a mistake`, await says(), /^Refused: the piece l was used before/);
  const textsOf = selector => `[...document.querySelectorAll('${selector}')].map(x => x.textContent)`;
  const places = `return ${textsOf('#answer .linkish')} + ' ' + ${textsOf('#back mark')}`;
  expect(`${kind} its place`, await it.run(places), 'line 5, column 8,line 4, column 8 l,l');
  if (shots) await it.shot(join(shots, `${kind}-mistake.png`));
  await it.press('#answer .linkish');
  await it.type('#text', 'r');
  await it.press('[data-do=verify]');
  await it.until(`/^Not fair/.test(${TITLE})`);
  expect(`${kind} mended`, await says(), 'Not fair: agent 2 can envy agent 1');
  await stepped(it, kind);
}
// The counterexample cut by cut: a half is cut, values are none, and the shares are given.
async function stepped(it, kind) {
  const count = `return document.querySelector('.steps .count').textContent`;
  const words = `return document.querySelector('.steps .words').textContent`;
  expect(`${kind} steps`, await it.run(count), 'Step 1 of 2');
  expect(`${kind} the first step`, await it.run(words), /^Agent 1 cuts 1\/2 off a piece: at 1\.$/);
  await it.press('.steps button[aria-label="Step on"]');
  expect(`${kind} the last step`, await it.run(words), /Agent 2 envies agent 1: it values that share at 1, and its own at 0\./);
}
// The address that a link gives brings the text and the tastes back.
async function links(it, kind) {
  await it.run(write('protocol mine agents 2 {\n  give cake to 2; # größer\n}\n'));
  await it.run(`const field = document.querySelector('#tastes input'); field.value = '1 2 5'; field.dispatchEvent(new Event('input'));`);
  const held = '[source(), tastesText()].join()', before = await it.run(`return ${held}`);
  await it.press('#link');
  await it.until(`document.getElementById('address').value.includes('protocol=')`);
  const address = await it.run(`return document.getElementById('address').value`);
  await it.open(new URL(address).hash);
  await it.until(`document.body.dataset.done === 'yes'`);
  expect(`${kind} a link`, await it.run(`return ${held}`), before);
  await choose(it, '0');
  await it.until(`${held} !== ${JSON.stringify(before)} && location.hash.startsWith('#example=')`);
  await it.run('history.back()');
  await it.until(`${held} === ${JSON.stringify(before)}`);
  await it.open('#protocol=nothing');
  await it.until(`document.body.dataset.done === 'yes'`);
  expect(`${kind} a broken link`, await it.run(`return ${TITLE}`), 'The address holds no protocol');
}
// A certificate from a file: a right one, the same with a changed line, and of another protocol.
async function certificates(it, kind) {
  const ask = async (words, wanted) => {
    writeFileSync(join(room, 'given.cert'), words);
    await it.run(`document.getElementById('answer').replaceChildren(); document.getElementById('certificate-box').open = true;`);
    await it.type('#certificate', join(room, 'given.cert'));
    await it.until(TITLE);
    const said = await it.run(`return ${TITLE} + ' ' + document.querySelector('#answer .words p:last-child').textContent`);
    expect(`${kind} a certificate`, said, wanted);
  };
  await it.open('#example=cut_and_choose.slice&do=verify');
  await it.until(`document.body.dataset.done === 'yes'`);
  await it.run(`[...document.querySelectorAll('#answer button')].find(x => /again/.test(x.textContent)).click()`);
  await it.until(`/right/.test(${TITLE})`);
  const right = await it.run(`return runProgram(['verify', PROTOCOL], { [PROTOCOL]: bytesOf(source()) }).then(it => wordsOf(it.out))`);
  await ask(right, /^The certificate is right So, whatever the agents like/);
  await ask(right.replace('"goals":6', '"goals":7'), /^The certificate is wrong .*: line \d+ closes with another number of goals\.$/);
  await ask(right.replace('"cc"', '"dd"'), /is wrong .*differs in its protocol\.$/);
  if (shots) await it.shot(join(shots, `${kind}-certificate.png`));
}
// Remarks fold away, and places stay what they are.
async function folds(it, kind) {
  await it.open('#example=gallery/even_paz.slice');
  await it.until(`document.body.dataset.done === 'yes'`);
  const seen = `return [text.value[0] === '#', gutter.textContent.split('\\n')[0], source()[0] === '#'].join()`;
  expect(`${kind} folded`, await it.run(seen), 'false,10,true');
  await it.press('#fold');
  expect(`${kind} unfolded`, await it.run(seen), 'true,1,true');
  const tall = await it.run(`return document.querySelector('.sheet').clientHeight / innerHeight`);
  expect(`${kind} the editor is as high as a screen at most`, tall > 0.4 && tall < 1, true);
}
// Large work tells how far it is, and stops.
async function stops(it, kind) {
  await it.open('#example=gallery/even_paz_claims.slice');
  await it.until(`document.body.dataset.done === 'yes'`);
  await it.run(pressed('verify'));
  await it.until(`/goals done/.test(document.getElementById('progress-words').textContent)`);
  if (shots) await it.shot(join(shots, `${kind}-progress.png`));
  await it.press('#stop');
  expect(`${kind} stop`, await it.run(`return ${TITLE}`), 'Stopped');
}

try {
  await withBrowser(async open => {
    for (const [kind, screen] of Object.entries(SCREENS)) {
      if (!shots && screen.dark && screen.width < 600) continue;
      const it = await open(page, screen);
      for (const part of [examples, newUser, links, certificates, folds, stops]) await part(it, kind);
      for (const line of await it.log()) expect(`${kind} the console`, `${line.level} ${line.message}`, /favicon/);
      if (kind === 'desktop') console.log(`page: Chromium ${it.version}`);
      await it.end();
    }
  });
} catch (error) {
  wrong++;
  console.log(`page: ${error.message}`);
}
rmSync(room, { recursive: true });
console.log(`page: ${looked} things were looked at in the browser, ${wrong} wrong`);
process.exitCode = wrong ? 1 : 0;
