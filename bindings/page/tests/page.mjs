// page.mjs PAGE [FOLDER]: works the page in headless Chromium, and puts screenshots into FOLDER.
import assert from "node:assert/strict";
import { spawn } from "node:child_process";
import { mkdirSync, mkdtempSync, rmSync, writeFileSync } from "node:fs";
import { tmpdir } from "node:os";
import { join, resolve } from "node:path";
import { pathToFileURL } from "node:url";

const [page, folder] = process.argv.slice(2);
const address = pathToFileURL(resolve(page)).href;
const profile = mkdtempSync(join(tmpdir(), "page-"));
const browser = spawn(
  process.env.CHROMIUM ?? "chromium",
  ["--headless=new", "--no-sandbox", "--disable-gpu", "--no-first-run", "--remote-debugging-pipe", `--user-data-dir=${profile}`, "about:blank"],
  { stdio: ["ignore", "ignore", "ignore", "pipe", "pipe"] },
);

// ---- the browser's protocol, over two pipes

const waiting = new Map(), requests = [], thrown = [];
let last = 0, rest = "";
browser.stdio[4].setEncoding("utf8").on("data", (data) => {
  const messages = (rest + data).split("\0");
  rest = messages.pop();
  for (const { id, error, result, method, params } of messages.map((it) => JSON.parse(it))) {
    if (method === "Network.requestWillBeSent") requests.push(params.request.url);
    if (method === "Runtime.exceptionThrown") thrown.push(params.exceptionDetails.exception?.description ?? params.exceptionDetails.text);
    if (!waiting.has(id)) continue;
    const { done, failed } = waiting.get(id);
    waiting.delete(id);
    if (error) failed(new Error(error.message));
    else done(result);
  }
});
const send = (method, params = {}, sessionId) =>
  new Promise((done, failed) => {
    waiting.set(++last, { done, failed });
    browser.stdio[3].write(`${JSON.stringify({ id: last, method, params, sessionId })}\0`);
  });

class Tab {
  static async open(url, width = 1500, height = 1250) {
    const { targetId } = await send("Target.createTarget", { url: "about:blank" });
    const { sessionId } = await send("Target.attachToTarget", { targetId, flatten: true });
    const tab = new Tab();
    tab.send = (method, params) => send(method, params, sessionId);
    await tab.send("Runtime.enable");
    await tab.send("Network.enable");
    await tab.send("Page.enable");
    await tab.size(width, height);
    await tab.send("Page.navigate", { url });
    await tab.until("document.body?.dataset.ready === 'yes'");
    return tab;
  }
  size(width, height) {
    return this.send("Emulation.setDeviceMetricsOverride", { width, height, deviceScaleFactor: 1, mobile: width < 600 });
  }
  async read(expression) {
    const { result, exceptionDetails } = await this.send("Runtime.evaluate", { expression, returnByValue: true, awaitPromise: true });
    if (exceptionDetails) throw new Error(exceptionDetails.exception?.description ?? exceptionDetails.text);
    return result.value;
  }
  async until(expression) {
    for (let n = 0; n < 400; n++) {
      if (await this.read(expression)) return;
      await new Promise((done) => setTimeout(done, 25));
    }
    throw new Error([`never: ${expression}`, ...thrown].join("\n"));
  }
  async key(key, code = key, text = undefined, modifiers = 0) {
    const codes = { Tab: 9, Enter: 13, Backspace: 8, Space: 32, ArrowDown: 40, a: 65 };
    const it = { key, code, text, modifiers, windowsVirtualKeyCode: codes[key] ?? 0 };
    await this.send("Input.dispatchKeyEvent", { type: text ? "keyDown" : "rawKeyDown", ...it });
    await this.send("Input.dispatchKeyEvent", { type: "keyUp", ...it });
  }
  // Types over all that stands in the text.
  async type(text) {
    await this.read("document.getElementById('given').focus()");
    await this.key("a", "KeyA", undefined, 2);
    await this.read("document.getElementById('given').select()");
    await this.send("Input.insertText", { text });
    await this.until(`new URLSearchParams(location.hash.slice(1)).get('given') === ${JSON.stringify(text)}`);
  }
  document(dialect) {
    return this.read(`document.getElementById('document-${dialect}').textContent`);
  }
  verdict() {
    return this.read("document.getElementById('verdict').innerText");
  }
  marked() {
    return this.read("[...document.querySelectorAll('#marks mark')].map((it) => it.textContent)");
  }
  async shoot(name) {
    if (!folder) return;
    const { data } = await this.send("Page.captureScreenshot", { format: "png", captureBeyondViewport: true });
    writeFileSync(join(folder, `${name}.png`), Buffer.from(data, "base64"));
  }
}

const DIALECTS = ["2020-12", "2019-09", "draft-07", "openapi3"];
const PORT = '{"types":[{"id":"Port","name":"Port","shape":{"int":"u16"}}],"root":0}';
const LIST = '{"types":[\n  {"id":"S","name":"S","shape":{"seq":1}},\n  {"id":"n","name":"n","inline":true,"shape":{"int":"u8"}}],\n "root":0}';

async function shown() {
  const tab = await Tab.open(address);
  assert.match(await tab.document("2020-12"), /"\$schema": "https:\/\/json-schema.org\/draft\/2020-12\/schema",\n {2}"title": "Node"/);
  assert.match(await tab.verdict(), /^plain: /);
  await tab.shoot("wide");
  return tab;
}

async function typed(tab) {
  await tab.type(PORT);
  const documents = await Promise.all(DIALECTS.map((it) => tab.document(it)));
  assert.deepEqual(
    documents.slice(0, 3).map((it) => JSON.parse(it).maximum),
    [65535, 65535, 65535],
  );
  assert.equal(JSON.parse(documents[2]).$schema, "http://json-schema.org/draft-07/schema#");
  assert.match(await tab.verdict(), /^plain: /);
  assert.deepEqual(await tab.marked(), []);
  assert.equal(await tab.read("document.getElementById('example').value"), "");
}

async function changed(tab) {
  await tab.type(PORT.replace("u16", "u8"));
  assert.equal(JSON.parse(await tab.document("2020-12")).maximum, 255);
  // a key at the end: a space is no change of the document
  await tab.key(" ", "Space", " ");
  await tab.until("document.getElementById('given').value.endsWith(' ')");
  assert.equal(JSON.parse(await tab.document("2020-12")).maximum, 255);
}

async function broken(tab) {
  await tab.type(LIST.replace('"seq":1', '"seq":7'));
  assert.match(await tab.document("2020-12"), /^refused: 21 BadTable$/);
  assert.match(await tab.verdict(), /^refused: there is no document\s+fault: \/types\/0\/shape\/seq: 7 is no row of a table of 2$/);
  assert.deepEqual(await tab.marked(), ['"seq":7']);
  await tab.shoot("refused");
  // the place is reached by keys, and is then selected in the text
  await tab.read("document.getElementById('given').focus()");
  await tab.key("Tab");
  assert.match(await tab.read("document.activeElement.textContent"), /^fault: /);
  await tab.key("Enter", "Enter", "\r");
  assert.equal(await tab.read("document.activeElement.id"), "given");
  assert.equal(await tab.read("((it) => it.value.slice(it.selectionStart, it.selectionEnd))(document.getElementById('given'))"), '"seq":7');
  await tab.type(LIST.replace('"root":0', '"root":}'));
  assert.match(await tab.document("openapi3"), /^refused: 20 NotJson$/);
  assert.match(await tab.verdict(), /fault: this is no JSON: .* at line 4 column \d+$/);
  assert.deepEqual(await tab.marked(), ["}"]);
  await tab.type(LIST.replace('"inline":true,', ""));
  assert.match(await tab.verdict(), /^plain: .*\s+warning: \/types\/1 \("n"\): a primitive that is not `inline` becomes a definition$/s);
  assert.deepEqual(await tab.marked(), ['{"id":"n","name":"n","shape":{"int":"u8"}}']);
  const deep = Array.from({ length: 20000 }, (_, n) => `{"id":"${n}","name":"${n}","inline":true,"shape":${n ? `{"seq":${n - 1}}` : '"text"'}}`);
  await tab.type(`{"types":[${deep}],"root":19999}`);
  await tab.until("document.getElementById('document-2020-12').textContent.startsWith('stopped: ')");
  await tab.type(PORT);
  assert.equal(JSON.parse(await tab.document("2020-12")).maximum, 65535);
}

async function flagged(tab) {
  await tab.read("document.getElementById('example').value = 'linked list', document.getElementById('example').dispatchEvent(new Event('change'))");
  await tab.until("document.getElementById('document-2020-12').textContent.includes('Node')");
  await tab.read("document.getElementById('serialize').click()");
  await tab.until("location.hash.includes('serialize=1')");
  await tab.read("document.getElementById('serialize').click()");
  await tab.read("document.querySelector('[value=sample]').click()");
  await tab.until("document.getElementById('given-title').textContent === 'The example value'");
  await tab.type('{"name":"Ada","tags":["math",1.50]}');
  assert.match(await tab.document("draft-07"), /"name": \{\n\s+"type": "string"/);
  assert.match(await tab.verdict(), /^an example: /);
  await tab.shoot("example");
  await tab.type("[18446744073709551616]");
  assert.match(await tab.verdict(), /^no example\s+fault: 22 NotWhole$/);
  return tab.read("location.href");
}

// A link shows what was typed.
async function linked(url) {
  const tab = await Tab.open(url.replace(/#.*/, "") + "#" + new URLSearchParams({ kind: "types", given: LIST, inline: "1" }), 390, 844);
  assert.equal(await tab.read("document.getElementById('given').value"), LIST);
  assert.equal(await tab.read("document.getElementById('inline').checked"), true);
  assert.equal(JSON.parse(await tab.document("2019-09")).items.maximum, 255);
  const [inside, width] = await tab.read("[document.documentElement.scrollWidth, innerWidth]");
  assert.ok(inside <= width, `the page is ${inside} wide in a window of ${width}`);
  await tab.shoot("narrow");
  await tab.size(390, 2600);
  await tab.shoot("narrow-whole");
  const again = await Tab.open(url);
  assert.equal(await again.read("document.getElementById('given').value"), "[18446744073709551616]");
  assert.equal(await again.read("document.querySelector('[value=sample]').checked"), true);
  await again.read("location.hash = '#example=GeoJSON'");
  await again.until("document.getElementById('document-2020-12').textContent.includes('FeatureCollection')");
  assert.equal(await again.read("document.querySelector('[value=types]').checked"), true);
  await again.shoot("wide-geojson");
}

// What a screen reader finds: each control has a name, the verdict is told, and the documents have titles.
async function named() {
  const tab = await Tab.open(address);
  const { nodes } = await tab.send("Accessibility.getFullAXTree");
  const of = (role) => nodes.filter((it) => it.role?.value === role && !it.ignored).map((it) => it.name?.value ?? "");
  assert.deepEqual(of("textbox"), ["The table"]);
  assert.equal(of("combobox").length, 1);
  for (const role of ["combobox", "radio", "checkbox", "button", "textbox"]) assert.ok(of(role).length && of(role).every((it) => it.trim()), role);
  assert.equal(of("status").length, 1);
  assert.ok(["Draft 2020-12", "Draft 2019-09", "Draft 7", "OpenAPI 3.0"].every((it) => of("heading").includes(it)));
}

try {
  if (folder) mkdirSync(folder, { recursive: true });
  const tab = await shown();
  await typed(tab);
  await changed(tab);
  await broken(tab);
  await linked(await flagged(tab));
  await named();
  assert.deepEqual(requests.filter((it) => !it.startsWith("file:") && !it.startsWith("data:")), []);
  assert.deepEqual(thrown, []);
  console.log("page: a table is typed, changed and broken; links, flags, examples, keys and names are as they should be");
} finally {
  browser.kill();
  await new Promise((done) => browser.once("exit", done));
  rmSync(profile, { recursive: true, force: true, maxRetries: 5 });
}
