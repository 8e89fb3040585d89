'use strict';
// Why a text can't be given the names of a tree.

// `span`, in bytes of the text before, tells the place; null where the whole is to blame.
class EditFault extends Error {
  constructor(message, span = null) {
    super(message);
    this.name = 'EditFault';
    this.span = span;
  }
}

module.exports = { EditFault };
