'use strict';
// A headless Chromium, driven over its debugging pipe.

const { spawn } = require('child_process');
const fs = require('fs');
const os = require('os');
const path = require('path');

const WORDS = ['--headless=new', '--no-sandbox', '--disable-gpu', '--hide-scrollbars', '--remote-debugging-pipe', '--no-first-run'];

class Browser {
  constructor() {
    this.profile = fs.mkdtempSync(path.join(os.tmpdir(), 'page-'));
    const words = [...WORDS, `--user-data-dir=${this.profile}`, 'about:blank'];
    this.child = spawn(process.env.CHROMIUM || 'chromium', words, { stdio: ['ignore', 'ignore', 'ignore', 'pipe', 'pipe'] });
    this.waiting = new Map();
    this.events = [];
    this.last = 0;
    this.rest = '';
    this.child.stdio[4].on('data', (piece) => this.receive(piece.toString('utf8')));
  }

  // Messages end with a zero byte.
  receive(piece) {
    const messages = (this.rest + piece).split('\0');
    this.rest = messages.pop();
    for (const message of messages) {
      const { id, result, error, method } = JSON.parse(message);
      const waiting = id === undefined ? this.waiting.get(method) : this.waiting.get(id);
      if (waiting !== undefined) {
        this.waiting.delete(id === undefined ? method : id);
        waiting(error === undefined ? result : { failed: error.message });
      }
    }
  }

  send(method, params = {}) {
    this.last += 1;
    const id = this.last;
    this.child.stdio[3].write(`${JSON.stringify({ id, method, params, sessionId: this.session })}\0`);
    return new Promise((resolve, reject) => {
      this.waiting.set(id, (result) => (result.failed === undefined ? resolve(result) : reject(new Error(`${method}: ${result.failed}`))));
    });
  }

  event(method) {
    return new Promise((resolve) => this.waiting.set(method, resolve));
  }

  async attach(width, height) {
    const { targetId } = await this.send('Target.createTarget', { url: 'about:blank' });
    const { sessionId } = await this.send('Target.attachToTarget', { targetId, flatten: true });
    this.session = sessionId;
    await this.send('Page.enable');
    await this.send('Performance.enable', { timeDomain: 'threadTicks' });
    await this.resize(width, height);
  }

  resize(width, height) {
    return this.send('Emulation.setDeviceMetricsOverride', { width, height, deviceScaleFactor: 1, mobile: false });
  }

  // Opens an address anew, also where only its part behind # differs from the last one's.
  async open(address) {
    await this.load('about:blank');
    await this.load(address);
  }

  async load(address) {
    const loaded = this.event('Page.loadEventFired');
    await this.send('Page.navigate', { url: address });
    await loaded;
  }

  async ask(expression) {
    const { result, exceptionDetails } = await this.send('Runtime.evaluate', { expression, returnByValue: true, awaitPromise: true });
    if (exceptionDetails !== undefined) {
      throw new Error(`${expression}: ${exceptionDetails.exception.description}`);
    }
    return result.value;
  }

  // How long the page's thread has worked since it was opened, in milliseconds.
  async processorTime() {
    const { metrics } = await this.send('Performance.getMetrics');
    return 1000 * metrics.find((metric) => metric.name === 'TaskDuration').value;
  }

  // A click of the mouse in the middle of an element.
  async click(selector) {
    const place = await this.ask(`(() => { const e = document.querySelector(${JSON.stringify(selector)});
      e.scrollIntoView({ block: 'center' }); const b = e.getClientRects()[0];
      return { x: b.left + b.width / 2, y: b.top + b.height / 2 }; })()`);
    const button = { ...place, button: 'left', clickCount: 1 };
    await this.send('Input.dispatchMouseEvent', { type: 'mouseMoved', ...place });
    await this.send('Input.dispatchMouseEvent', { type: 'mousePressed', ...button });
    await this.send('Input.dispatchMouseEvent', { type: 'mouseReleased', ...button });
  }

  async key(key, text = '') {
    await this.send('Input.dispatchKeyEvent', { type: 'keyDown', key, text, windowsVirtualKeyCode: VIRTUAL[key] || 0 });
    await this.send('Input.dispatchKeyEvent', { type: 'keyUp', key, windowsVirtualKeyCode: VIRTUAL[key] || 0 });
  }

  colours(scheme) {
    return this.send('Emulation.setEmulatedMedia', { features: [{ name: 'prefers-color-scheme', value: scheme }] });
  }

  async screenshot(file) {
    const { data } = await this.send('Page.captureScreenshot', { format: 'png' });
    fs.writeFileSync(file, Buffer.from(data, 'base64'));
  }

  stop() {
    this.child.kill('SIGKILL');
  }

  async close() {
    const ended = new Promise((resolve) => this.child.on('exit', resolve));
    this.session = undefined;
    this.send('Browser.close').catch(() => {});
    await ended;
    fs.rmSync(this.profile, { recursive: true, force: true, maxRetries: 5 });
  }
}

const VIRTUAL = { Tab: 9, Enter: 13, Escape: 27, ArrowUp: 38, ArrowDown: 40, F2: 113 };

module.exports = { Browser };
