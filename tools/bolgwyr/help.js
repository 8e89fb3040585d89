'use strict';
// What help tells behind a command's words: paragraphs, examples and statuses, folded to the width of the terminal.

const STATUSES = "Status: 0 nothing found; 1 findings; 2 words that aren't known; 3 something could not be read or run.";

const WIDTH_WITHOUT_TERMINAL = 80; // commander folds the words to the same
const GREATEST_WIDTH = 100;
const LEAST_ROOM = 24; // for what an example does, beside the command

// The lines of a text; a word that is longer than a line has one of its own.
function folded(text, width) {
  const lines = [''];
  for (const word of text.split(/\s+/)) {
    const line = lines[lines.length - 1];
    if (line === '') {
      lines[lines.length - 1] = word;
    } else if (line.length + 1 + word.length <= width) {
      lines[lines.length - 1] = `${line} ${word}`;
    } else {
      lines.push(word);
    }
  }
  return lines;
}

// A command, and beside it what it does, or below it where it is too long.
function exampleLines([command, what], column, width) {
  if (what === undefined) {
    return [`  ${command}`];
  }
  const lines = folded(what, width - column);
  const isBeside = command.length + 4 <= column;
  const first = isBeside ? [`  ${command}`.padEnd(column) + lines.shift()] : [`  ${command}`];
  return [...first, ...lines.map((line) => ' '.repeat(column) + line)];
}

function exampleText(examples, width) {
  const longest = Math.max(...examples.filter(([, what]) => what !== undefined).map(([command]) => command.length), 0);
  const column = Math.min(longest + 4, width - LEAST_ROOM);
  return ['Examples:', ...examples.flatMap((example) => exampleLines(example, column, width))].join('\n');
}

// Each part is a paragraph, or a list of examples: a command, and what it does where that isn't plain.
const partText = (part, width) => (typeof part === 'string' ? folded(part, width).join('\n') : exampleText(part, width));

const widthWithin = (width) => Math.min(width ?? WIDTH_WITHOUT_TERMINAL, GREATEST_WIDTH);

// The text for `addHelpText`, by the width that commander folds to.
function behind(...parts) {
  return ({ command, error }) => {
    const { getErrHelpWidth, getOutHelpWidth } = command.configureOutput();
    const width = widthWithin(error ? getErrHelpWidth() : getOutHelpWidth());
    return parts.map((part) => `\n${partText(part, width)}`).join('\n');
  };
}

// For `configureHelp`: commander folds what options do, but not what the command does.
const FOLDED_DESCRIPTION = {
  commandDescription(command) {
    return folded(command.description(), widthWithin(this.helpWidth)).join('\n');
  },
};

module.exports = { FOLDED_DESCRIPTION, STATUSES, behind };
