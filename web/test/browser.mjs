// A headless Chromium, by chromedriver and its plain protocol.
import { spawn } from 'node:child_process';
import { writeFileSync } from 'node:fs';
import { pathToFileURL } from 'node:url';

const wait = ms => new Promise(done => setTimeout(done, ms));

export async function withBrowser(use) {
  const port = 9600 + process.pid % 300, driver = spawn('chromedriver', [`--port=${port}`], { stdio: 'ignore' });
  const call = async (method, path, body) => {
    const answer = await fetch(`http://127.0.0.1:${port}${path}`, { method, body: body && JSON.stringify(body) });
    const { value } = await answer.json();
    if (value?.error) throw new Error(`${value.error}: ${value.message}`);
    return value;
  };
  try {
    for (let tries = 0; tries < 100; tries++) try { await call('GET', '/status'); break; } catch { await wait(100); }
    await use((page, screen) => opened(call, page, screen));
  } finally {
    driver.kill();
  }
}

// A window of that width and height, light or dark, for a page's file.
async function opened(call, page, { width, height, dark }) {
  const args = ['--headless=new', '--no-sandbox', '--disable-gpu', '--hide-scrollbars', `--window-size=${width},${height}`];
  const wanted = { 'goog:chromeOptions': { args }, 'goog:loggingPrefs': { browser: 'ALL' } };
  const { sessionId, capabilities } = await call('POST', '/session', { capabilities: { alwaysMatch: wanted } });
  const at = `/session/${sessionId}`;
  const tell = (cmd, params) => call('POST', `${at}/goog/cdp/execute`, { cmd, params });
  const size = tall => tell('Emulation.setDeviceMetricsOverride', { width, height: tall, deviceScaleFactor: 1, mobile: width < 600 });
  await size(height);
  await tell('Emulation.setEmulatedMedia', { features: [{ name: 'prefers-color-scheme', value: dark ? 'dark' : 'light' }] });
  const run = (script, ...words) => call('POST', `${at}/execute/sync`, { script, args: words });
  return {
    version: capabilities.browserVersion,
    run,
    async open(hash = '') {
      await call('POST', `${at}/url`, { url: 'about:blank' });
      await call('POST', `${at}/url`, { url: pathToFileURL(page).href + hash });
    },
    async until(script, limit = 60) {
      for (let tries = 0; tries < limit * 20; tries++, await wait(50)) if (await run(`return !!(${script})`)) return;
      throw new Error(`this never came: ${script}`);
    },
    // Types into an element as a hand would; a path into a file field chooses that file.
    async type(selector, words) {
      const found = await call('POST', `${at}/element`, { using: 'css selector', value: selector });
      await call('POST', `${at}/element/${Object.values(found)[0]}/value`, { text: words });
    },
    async press(selector) {
      const found = await call('POST', `${at}/element`, { using: 'css selector', value: selector });
      await call('POST', `${at}/element/${Object.values(found)[0]}/click`, {});
    },
    log: () => call('POST', `${at}/se/log`, { type: 'browser' }),
    // A picture of the whole page, as far as 6000 points down.
    async shot(file) {
      await size(Math.min(6000, Math.max(height, await run('return Math.ceil(document.documentElement.scrollHeight)'))));
      const { data } = await tell('Page.captureScreenshot', {});
      writeFileSync(file, Buffer.from(data, 'base64'));
      await size(height);
    },
    end: () => call('DELETE', at),
  };
}
