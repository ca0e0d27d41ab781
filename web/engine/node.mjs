// The engine under node: the module out of the page, over the same machine as in the page.
import { readFileSync } from 'node:fs';
import { gunzipSync } from 'node:zlib';

export const PAGE = new URL('../../docs/slice.html', import.meta.url).pathname;

// The bytes of the module that a page holds, or of a module's own file, and what the page says of it.
export function moduleIn(file) {
  if (!file.endsWith('.html')) return { bytes: readFileSync(file), about: null };
  const page = readFileSync(file, 'utf8');
  const part = id => new RegExp(`<script type="[a-z/]*" id="${id}">([^<]*)</script>`).exec(page)[1];
  return { bytes: gunzipSync(Buffer.from(part('module'), 'base64')), about: JSON.parse(part('about-engine')) };
}

// kernel.js is a plain script, as the page's worker wants it.
const kernel = readFileSync(new URL('kernel.js', import.meta.url), 'utf8');
export const machine = new Function(`${kernel}\nreturn machine;`)();
