// Opens pages of `smp_view page` in a real browser, and looks whether they are right. It does the
// work of check-page.sh, and needs no package: the browser is driven over a pipe.
import { execFileSync, spawn } from 'node:child_process';
import { mkdirSync, mkdtempSync, readFileSync, rmSync, statSync, writeFileSync } from 'node:fs';
import { tmpdir } from 'node:os';
import { basename, join } from 'node:path';
import { pathToFileURL } from 'node:url';

const [browser, program, examples, shots] = process.argv.slice(2);
const flags = ['--headless=new', '--no-sandbox', '--disable-gpu', '--hide-scrollbars'];
const room = mkdtempSync(join(tmpdir(), 'check-page-'));
const shotRoom = shots ?? join(room, 'shots');
mkdirSync(shotRoom, { recursive: true });

// The documents, and the options that all their commands take.
const DOCUMENTS = [
  ['questions/shared-mutex.json', []],
  ['priority-inversion-ended.json', []],
  ['held-kernel.json', []],
  ['settled/shorter-timeout.json', ['--settle']],
  ['first-run.json', []],
  ['periodic-task.json', []],
  ['another-call.json', []],
  ['two-notifications.json', []],
];

let passed = 0;
let failed = 0;

function check(what, is, wanted) {
  if (is === wanted) {
    passed += 1;
  } else {
    failed += 1;
    console.log(`FAILED ${what}: ${JSON.stringify(is)?.slice(0, 300)}`);
    console.log(`       wanted ${JSON.stringify(wanted)?.slice(0, 300)}`);
  }
}

// ---- the browser

class Browser {
  constructor() {
    const pipes = ['ignore', 'ignore', 'ignore', 'pipe', 'pipe'];
    const words = [...flags, '--remote-debugging-pipe', `--user-data-dir=${join(room, 'user')}`];
    this.process = spawn(browser, words, { stdio: pipes });
    this.process.on('error', (error) => {
      console.log(`the browser does not run: ${error.message}`);
      process.exit(2);
    });
    this.ended = new Promise((resolve) => this.process.on('exit', resolve));
    this.last = 0;
    this.waiting = new Map();
    this.events = [];
    let text = '';
    this.process.stdio[4].on('data', (bytes) => {
      const messages = (text + bytes).split('\0');
      text = messages.pop();
      messages.forEach((message) => this.take(JSON.parse(message)));
    });
  }

  take(message) {
    if (message.id === undefined) {
      this.events.push(message);
      return;
    }
    const { resolve, reject } = this.waiting.get(message.id);
    this.waiting.delete(message.id);
    message.error ? reject(new Error(message.error.message)) : resolve(message.result);
  }

  send(method, params = {}) {
    const id = (this.last += 1);
    const { session } = this;
    this.process.stdio[3].write(JSON.stringify({ id, method, params, sessionId: session }) + '\0');
    return new Promise((resolve, reject) => this.waiting.set(id, { resolve, reject }));
  }

  // What it keeps in its folder is written once it has ended.
  async end() {
    await this.send('Browser.close').catch(() => {});
    await this.ended;
  }

  async start() {
    const { targetId } = await this.send('Target.createTarget', { url: 'about:blank' });
    const { sessionId } = await this.send('Target.attachToTarget', { targetId, flatten: true });
    this.session = sessionId;
    for (const domain of ['Page', 'Runtime', 'Log', 'Network']) await this.send(`${domain}.enable`);
  }

  // From a blank page, so that an address that differs in its place alone is opened anew.
  async open(url) {
    await this.load('about:blank');
    await this.load(url);
    await rest();
  }

  async load(url) {
    this.events = [];
    await this.send('Page.navigate', { url });
    while (!this.events.some((event) => event.method === 'Page.loadEventFired')) await rest();
  }

  async value(expression) {
    const answer = await this.send('Runtime.evaluate', { expression, returnByValue: true });
    if (answer.exceptionDetails) throw new Error(JSON.stringify(answer.exceptionDetails));
    return answer.result.value;
  }

  async click(x, y) {
    const where = { x, y, button: 'left', clickCount: 1 };
    await this.send('Input.dispatchMouseEvent', { type: 'mousePressed', ...where });
    await this.send('Input.dispatchMouseEvent', { type: 'mouseReleased', ...where });
    await rest();
  }

  async key(key, modifiers = 0) {
    const pressed = { key, code: key, modifiers };
    await this.send('Input.dispatchKeyEvent', { type: 'keyDown', ...pressed });
    await this.send('Input.dispatchKeyEvent', { type: 'keyUp', ...pressed });
    await rest();
  }

  async look(width, scheme) {
    const screen = { width, height: 900, deviceScaleFactor: 1, mobile: false };
    const features = [{ name: 'prefers-color-scheme', value: scheme }];
    await this.send('Emulation.setDeviceMetricsOverride', screen);
    await this.send('Emulation.setEmulatedMedia', { features });
    await rest();
  }

  // What went wrong in the page since it was opened.
  errors() {
    return this.events.flatMap(({ method, params }) => {
      if (method === 'Runtime.exceptionThrown') return [params.exceptionDetails.text];
      if (method === 'Log.entryAdded') return [params.entry.text];
      if (method === 'Runtime.consoleAPICalled') return [params.type];
      return [];
    });
  }

  requests() {
    const sent = this.events.filter(({ method }) => method === 'Network.requestWillBeSent');
    return sent.map(({ params }) => params.request.url);
  }
}

function rest() {
  return new Promise((resolve) => setTimeout(resolve, 60));
}

// ---- what the program prints

function printed(words, file) {
  const room = 1 << 28;
  return execFileSync(program, [...words, file], { encoding: 'latin1', maxBuffer: room });
}

// The lines of the place in the trace, and those of its step.
function linesOf(place, last, words, file) {
  const to = String(Math.min(place + 1, last));
  const trace = printed(['trace', ...words, '--from', String(place), '--to', to], file);
  return place === last ? trace : trace.slice(0, trace.lastIndexOf(`place ${place + 1},`));
}

// ---- the checks of a page

const TEXTS = `[...document.querySelectorAll('#trace > li')].map((place) => place.textContent)`;
const OPEN = `[...document.querySelectorAll('#trace > [aria-current]')].map((place) => place.id)`;
const HEADS = `[...document.querySelectorAll('h2')].map((head) => head.textContent)`;

function textOf(id) {
  return `document.querySelector('#${id} > pre')?.textContent`;
}

// Whether the place is seen below the picture.
function isSeen(id) {
  return `(() => {
    const { top } = document.getElementById('${id}').getBoundingClientRect();
    const { bottom } = document.getElementById('sheet').getBoundingClientRect();
    return top >= Math.min(bottom, innerHeight) - 1 && top < innerHeight;
  })()`;
}

// The steps of the upper and of the lower run of the picture; of one run these are the same.
const CELLS = `const sheet = document.getElementById('sheet');
  const steps = [...sheet.querySelectorAll('rect.z')];
  const inRow = (one) => steps.filter((step) => step.getAttribute('y') === one.getAttribute('y'));
  const [upper, lower] = [inRow(steps[0]), inRow(steps.at(-1))];`;

// The middle of the step of that index in the lower run, brought into view.
function cellAt(index) {
  return `(() => {
    ${CELLS}
    const cell = lower.at(${index});
    sheet.scrollIntoView();
    cell.scrollIntoView({ block: 'center', inline: 'center' });
    const { left, right, top, bottom } = cell.getBoundingClientRect();
    return { x: (left + right) / 2, right, y: (top + bottom) / 2, count: lower.length };
  })()`;
}

// The same column in the row of the upper run, which may have no step there.
function cellAbove(index) {
  return `(() => {
    ${CELLS}
    sheet.scrollIntoView();
    upper[0].scrollIntoView({ block: 'center', inline: 'nearest' });
    const { left, right } = lower.at(${index}).getBoundingClientRect();
    const { top, bottom } = upper[0].getBoundingClientRect();
    return { x: (left + right) / 2, y: (top + bottom) / 2, fewer: lower.length - upper.length };
  })()`;
}

// Whether the mark covers the column of the place from top to bottom, and is seen.
function isMarked(place) {
  return `(() => {
    ${CELLS}
    const cell = (lower[${place}] ?? lower.at(-1)).getBoundingClientRect();
    const from = ${place} < lower.length ? cell.left : cell.right;
    const mark = document.getElementById('mark').getBoundingClientRect();
    const whole = sheet.querySelector('svg').getBoundingClientRect();
    const box = sheet.getBoundingClientRect();
    const near = (a, b) => Math.abs(a - b) < 3;
    return near(mark.left, from) && near(mark.width, cell.width) && near(mark.height, whole.height)
      && mark.left > box.left - 3 && mark.right < box.right + 3;
  })()`;
}

// The links that do not lead to an element of this page, and what is loaded from elsewhere.
const ASTRAY = `[...document.querySelectorAll('[href], [src]')]
  .map((one) => one.getAttribute('href') ?? one.getAttribute('src'))
  .filter((to) => !to.startsWith('#') || !document.getElementById(to.slice(1)))`;

// The names of elements that two elements have.
const NAMED_TWICE = `[...document.querySelectorAll('[id]')].map((one) => one.id)
  .filter((id, index, ids) => ids.indexOf(id) !== index)`;

// By how many characters the first line of the text that is indented is shown to the right.
function indentOf(selector) {
  return `(() => {
    const text = document.querySelector('${selector}').firstChild;
    const at = text.data.search(/(?<=^ +)[^ ]/m);
    const leftOf = (index) => {
      const range = document.createRange();
      range.setStart(text, index);
      range.setEnd(text, index + 1);
      return range.getBoundingClientRect();
    };
    const { left } = text.parentNode.getBoundingClientRect();
    return Math.round((leftOf(at).left - left) / leftOf(at).width);
  })()`;
}

// How far it is indented in the text.
function indentIn(text) {
  return /^( +)[^ ]/m.exec(text)[1].length;
}

// Whether the open place, and the link to it, has a ground that no other has, nor the page.
function groundsOf(place) {
  return `['#trace > li', '#places > a'].map((kind) => {
    const grounds = [...document.querySelectorAll(kind)]
      .map((one) => getComputedStyle(one).backgroundColor);
    const [open] = grounds.splice(${place}, 1);
    const paper = getComputedStyle(document.body).backgroundColor;
    return open !== paper && grounds.every((ground) => ground === grounds[0] && ground !== open);
  }).join()`;
}

// The tables of loads, row by row, with their titles behind the heads.
const LOADS = `[...document.querySelectorAll('#report > .bars')]
  .filter((table) => /^load( before| after)?$/.test(table.caption.textContent))
  .map((table) => [...table.rows]
    .map((row) => [...row.cells].map((cell) => cell.textContent.trim()).join(' ').trim())
    .map((words, index) => (index ? words : words + ' ' + table.caption.textContent))
    .join('\\n'))`;

// The lines of a table in a text, with one space between two columns.
function withOneSpace(table) {
  return table.split('\n').map((line) => line.trim().replace(/ +/g, ' ')).join('\n');
}

async function checkTexts(browser, name, words, file) {
  const texts = await browser.value(TEXTS);
  check(`${name}: the trace`, texts.join(''), printed(['trace', ...words], file));
  const last = texts.length - 1;
  const place = Math.min(7, last);
  const text = await browser.value(`document.getElementById('place-${place}').textContent`);
  check(`${name}: the lines of place ${place}`, text, linesOf(place, last, words, file));
  const [numbers, ...loads] = printed(['report', ...words], file).trimEnd().split('\n\n');
  check(`${name}: the numbers of the report`, await browser.value(textOf('report')),
    `${numbers}\n`);
  check(`${name}: the loads of the report`, (await browser.value(LOADS)).join('\n\n'),
    loads.map(withOneSpace).join('\n\n'));
  const edits = JSON.parse(readFileSync(file, 'utf8')).edits?.length > 0;
  const compared = edits ? printed(['compare', ...words], file) : undefined;
  check(`${name}: the comparison`, await browser.value(textOf('comparison')), compared);
  return { last, edits };
}

// Looks whether the place is the open one, in all that shows it.
async function checkOpen(browser, name, what, place) {
  const id = `place-${place}`;
  const told = `${name}: ${what}`;
  check(told, (await browser.value(OPEN)).join(), id);
  check(`${told}, in the address`, await browser.value('location.hash'), `#${id}`);
  check(`${told}, in view`, await browser.value(isSeen(id)), true);
  check(`${told}, marked in the picture`, await browser.value(isMarked(place)), true);
  check(`${told}, on a ground of its own`, await browser.value(groundsOf(place)), 'true,true');
}

async function follow(browser, place) {
  await browser.value(`document.querySelector("#places > a[href='#place-${place}']").click()`);
  await rest();
}

async function checkSteps(browser, name, last) {
  const place = Math.min(7, last - 1);
  const cell = await browser.value(cellAt(place));
  check(`${name}: a step for each place`, cell.count, last);
  await browser.click(cell.x, cell.y);
  const open = (what, place) => checkOpen(browser, name, what, place);
  await open(`a click on place ${place}`, place);
  await browser.key('ArrowRight');
  await open('the key right', place + 1);
  await browser.key('ArrowLeft');
  await browser.key('ArrowLeft');
  await open('the key left, twice', Math.max(0, place - 1));
  await browser.click(cell.x, cell.y);
  await open('a click once more', place);
  for (const [held, modifiers] of [['Alt', 1], ['Ctrl', 2], ['Meta', 4], ['Shift', 8]]) {
    await browser.key('ArrowRight', modifiers);
    await open(`${held} and the key right`, place);
  }
  const end = await browser.value(cellAt(-1));
  await browser.click(end.right + 1, end.y);
  await open('a click behind the last step', last);
  await browser.key('ArrowRight');
  await open('the key right at the last place', last);
  await follow(browser, 0);
  await open('a link', 0);
  await browser.key('ArrowLeft');
  await open('the key left at the first place', 0);
}

// Clicks in the upper run open places of the lower one, those too that the upper one has not.
async function checkUpper(browser, name, last, fewer) {
  for (const place of new Set([0, Math.max(0, last - 3), last - 1])) {
    const cell = await browser.value(cellAbove(place));
    if (fewer) check(`${name}: so many steps fewer in the upper run`, cell.fewer, fewer);
    await browser.click(cell.x, cell.y);
    await checkOpen(browser, name, `a click above place ${place}`, place);
  }
}

// In a narrow window the picture is moved to the place that is opened.
async function checkNarrow(browser, name, last) {
  await browser.look(400, 'light');
  for (const place of [0, last, 0, Math.ceil(last / 2)]) {
    await follow(browser, place);
    await checkOpen(browser, name, `narrow, a link to place ${place}`, place);
  }
  await browser.look(1600, 'light');
}

// Links lead to elements of the page, and texts are shown with their indents.
async function checkForm(browser, name, words, file) {
  check(`${name}: links that lead nowhere`, (await browser.value(ASTRAY)).join(), '');
  check(`${name}: names that stand twice`, (await browser.value(NAMED_TWICE)).join(), '');
  check(`${name}: the indent of a place`, await browser.value(indentOf('#place-0 > pre')),
    indentIn(printed(['trace', ...words], file)));
  check(`${name}: the indent of the report`, await browser.value(indentOf('#report > pre')),
    indentIn(printed(['report', ...words], file)));
}

async function checkLooks(browser, name, last) {
  for (const width of [800, 1600]) {
    for (const scheme of ['light', 'dark']) {
      await browser.look(width, scheme);
      await browser.value('scrollTo(0, 0)');
      await rest();
      const wide = await browser.value('document.documentElement.scrollWidth');
      check(`${name}: nothing stands out at ${width}, ${scheme}`, wide <= width, true);
      if (last > 0) {
        const grounds = await browser.value(groundsOf(0));
        check(`${name}: the ground of the open place at ${width}, ${scheme}`, grounds, 'true,true');
      }
      const { data } = await browser.send('Page.captureScreenshot', { format: 'png' });
      const shot = join(shotRoom, `${name}-${width}-${scheme}.png`);
      writeFileSync(shot, Buffer.from(data, 'base64'));
      check(`${name}: a picture at ${width}, ${scheme}`, statSync(shot).size > 5000, true);
    }
  }
}

// Without its script the page is there, from top to bottom.
async function checkBare(browser, name, url, edits, last) {
  await browser.send('Emulation.setScriptExecutionDisabled', { value: true });
  await browser.open(`${url}#place-${last}`);
  const heads = ['Picture', 'Trace', ...(edits ? ['Comparison'] : []), 'Report'];
  check(`${name}: the parts without the script`, (await browser.value(HEADS)).join(), heads.join());
  check(`${name}: no word of keys without the script`,
    await browser.value(`document.getElementById('keys').hidden`), true);
  check(`${name}: a place without the script`, await browser.value(isSeen(`place-${last}`)), true);
  await browser.send('Emulation.setScriptExecutionDisabled', { value: false });
}

// The document that the browser makes of the page, as it prints it.
function checkDump(name, url, place) {
  const dump = execFileSync(browser, [...flags, '--dump-dom', url], {
    encoding: 'utf8', stdio: ['ignore', 'pipe', 'ignore'], maxBuffer: 1 << 28,
  });
  check(`${name}: the dump has place ${place}`, dump.includes(`<li id="place-${place}"`), true);
}

async function checkPage(browser, name, words, file, fewer) {
  const page = join(room, `${name}.html`);
  writeFileSync(page, printed(['page', ...words], file), 'latin1');
  const url = pathToFileURL(page).href;
  await browser.look(1600, 'light');
  await browser.open(url);
  check(`${name}: no error`, browser.errors().join('; '), '');
  check(`${name}: nothing from elsewhere`, browser.requests().join(), url);
  const { last, edits } = await checkTexts(browser, name, words, file);
  checkDump(name, url, Math.min(7, last));
  if (last > 0) {
    await checkForm(browser, name, words, file);
    await checkSteps(browser, name, last);
    await checkUpper(browser, name, last, fewer);
    await checkNarrow(browser, name, last);
    await follow(browser, 0);
  }
  await checkLooks(browser, name, last);
  check(`${name}: no error in the end`, browser.errors().join('; '), '');
  await checkBare(browser, name, url, edits, last);
}

// A document whose first task has a name that is markup.
function markedUp(file) {
  const copy = join(room, 'marked-up.json');
  const text = readFileSync(file, 'utf8');
  const [task] = (JSON.parse(text).session ?? JSON.parse(text)).tasks;
  const name = JSON.stringify(`</pre><b>&'"`);
  writeFileSync(copy, text.replaceAll(JSON.stringify(task.name), name.replaceAll('$', '$$$$')));
  return copy;
}

// A document of 120 more steps, whose edits insert two ticks at the end.
function longer(file) {
  const copy = join(room, 'two-more-ticks.json');
  const session = JSON.parse(readFileSync(file, 'utf8'));
  const tick = { do: 'tick' };
  session.steps.push(...Array(120).fill(tick));
  const at = session.steps.length;
  const edits = [at, at + 1].map((at) => ({ edit: 'insert', at, step: tick }));
  writeFileSync(copy, JSON.stringify({ session, edits }));
  return copy;
}

async function main() {
  const browser = new Browser();
  await browser.start();
  const files = DOCUMENTS.map(([name, words]) => [join(examples, name), words]);
  files.push([markedUp(files[0][0]), []]);
  files.push([longer(join(examples, 'first-run.json')), [], 2]);
  for (const [file, words, fewer] of files) {
    await checkPage(browser, basename(file, '.json'), words, file, fewer);
  }
  await browser.end();
}

try {
  await main();
} catch (error) {
  failed += 1;
  console.log(`FAILED ${error.stack}`);
}
rmSync(room, { recursive: true, force: true, maxRetries: 20, retryDelay: 200 });
console.log(`${passed} passed, ${failed} failed`);
process.exit(failed === 0 ? 0 : 1);
