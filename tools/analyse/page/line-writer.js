'use strict';
// Writes the lines of a source one after the other, with names and scopes as elements and marks on the text.

const { escape } = require('./html.js');

const MARKS = ['comment', 'label', 'unused', 'finding'];

function openTag(event) {
  if (event.type === 'scope') {
    return `<span class="inline-scope" id="${event.id}">`;
  }
  return `<a class="${event.look}" id="${event.id}" href="#${event.target}">`;
}

class LineWriter {
  constructor(positions, events) {
    this.positions = positions;
    this.events = events;
    this.next = 0;
    this.open = [];
    this.active = Object.fromEntries(MARKS.map((mark) => [mark, 0]));
    this.parts = [];
  }

  // Text with the marks that are on it.
  write(start, end) {
    if (start === end) {
      return;
    }
    const text = escape(this.positions.text.slice(start, end));
    const marks = MARKS.filter((mark) => this.active[mark] > 0);
    this.parts.push(marks.length === 0 ? text : `<span class="${marks.join(' ')}">${text}</span>`);
  }

  closeTo(place) {
    while (this.open.length > 0 && this.open[this.open.length - 1].end <= place) {
      this.parts.push(this.open.pop().close);
    }
  }

  // An element that would cross another one, or has no text, keeps its place as an empty one.
  openElement(event, place, lineEnd) {
    const around = this.open[this.open.length - 1];
    const end = Math.min(event.span.end, lineEnd, around === undefined ? lineEnd : around.end);
    if (end <= place || (around !== undefined && around.isName)) {
      this.parts.push(`<span id="${event.id}"></span>`);
      return;
    }
    this.parts.push(openTag(event));
    this.open.push({ end, isName: event.type === 'name', close: event.type === 'name' ? '</a>' : '</span>' });
  }

  handle(event, place, lineEnd) {
    if (event.type === 'mark') {
      this.active[event.mark] += 1;
      this.parts.push(event.id === null ? '' : `<span id="${event.id}"></span>`);
    } else if (event.type === 'unmark') {
      this.active[event.mark] -= 1;
    } else {
      this.openElement(event, place, lineEnd);
    }
  }

  handleAt(place, lineEnd) {
    while (this.next < this.events.length && this.events[this.next].span.start <= place) {
      this.handle(this.events[this.next], place, lineEnd);
      this.next += 1;
    }
  }

  // The next place behind this one where something begins or ends.
  nextPlace(lineEnd) {
    const event = this.next < this.events.length ? this.events[this.next].span.start : lineEnd;
    const inner = this.open.length > 0 ? this.open[this.open.length - 1].end : lineEnd;
    return Math.min(lineEnd, event, inner);
  }

  // A line, from 1, with its line feed. Lines have to be asked for in order.
  line(number) {
    const lineEnd = this.positions.lineEnd(number - 1);
    let place = this.positions.lineStarts[number - 1];
    this.parts = [];
    this.handleAt(place, lineEnd);
    while (place < lineEnd) {
      const next = this.nextPlace(lineEnd);
      this.write(place, next);
      place = next;
      this.closeTo(place);
      this.handleAt(place, lineEnd);
    }
    this.closeTo(lineEnd);
    return `${this.parts.join('')}\n`;
  }
}

module.exports = { LineWriter };
