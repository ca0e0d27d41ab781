// The address holds the protocol and the tastes, behind the #: an example's name, or the texts themselves, packed.
const GALLERY = JSON.parse($('gallery').textContent);
const LONG_ADDRESS = 8000;

async function packed(words) {
  const bytes = new Uint8Array(await through(bytesOf(words), new CompressionStream('deflate-raw')));
  let signs = '';
  for (const it of bytes) signs += String.fromCharCode(it);
  return btoa(signs).replace(/\+/g, '-').replace(/\//g, '_').replace(/=+$/, '');
}
async function unpacked(words) {
  const signs = atob(words.replace(/-/g, '+').replace(/_/g, '/'));
  return wordsOf(await through(Uint8Array.from(signs, it => it.charCodeAt(0)), new DecompressionStream('deflate-raw')));
}
async function hashOf() {
  const example = GALLERY.find(it => it.text === source());
  const parts = [example ? `example=${example.file}` : `protocol=${await packed(source())}`];
  const own = JSON.stringify(tastes());
  if (own !== JSON.stringify(textsOf(tastesFor(tasteRows.length)))) parts.push(`tastes=${await packed(own)}`);
  return `#${parts.join('&')}`;
}
const textsOf = list => list.map(it => ({ ends: it.ends.map(String), heights: it.heights.map(String) }));
async function keepAddress() {
  history.replaceState(null, '', await hashOf());
}
$('link').addEventListener('click', async () => {
  await keepAddress();
  $('linked').hidden = false;
  $('address').value = location.href;
  $('address').select();
  const size = location.href.length;
  const isLong = size > LONG_ADDRESS ? ` It is long, ${counted(size)} signs: some programs cut such addresses off.` : '';
  const told = await navigator.clipboard?.writeText(location.href).then(() => 'Copied.', () => null);
  $('copied').textContent = `${told || 'Copy it from here.'}${isLong}`;
});

const isTaste = it => Array.isArray(it?.ends) && Array.isArray(it?.heights);
const isTastes = list => Array.isArray(list) && list.length > 0 && list.length <= 16 && list.every(isTaste);
const holdsText = hash => /^#(?:example|protocol)=/.test(hash);
// Takes up what the address holds: what to do with it, or null.
async function takeAddress() {
  const wanted = new URLSearchParams(location.hash.slice(1).replace(/\+/g, '%2B'));
  const at = GALLERY.findIndex(it => it.file === wanted.get('example'));
  if (wanted.has('protocol')) takeText(await unpacked(wanted.get('protocol')), 'own', '');
  else takeExample(at < 0 ? 0 : at);
  const list = wanted.has('tastes') ? JSON.parse(await unpacked(wanted.get('tastes'))) : null;
  if (isTastes(list)) setTastes(textsOf(list));
  return wanted.get('do') in COMMANDS ? wanted.get('do') : null;
}
