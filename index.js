'use strict';
// Bolgwyr for other programs: index.d.ts describes the calls. A call is loaded when it is asked for.

module.exports = {
  get analyse() { return require('./tools/analyse/call.js').analyse; },
  get check() { return require('./tools/check/call.js').check; },
  get rename() { return require('./tools/rename/index.js').rename; },
  get renameInProject() { return require('./tools/rename/index.js').renameInProject; },
  get RenameRefusal() { return require('./tools/rename/index.js').RenameRefusal; },
  get mangle() { return require('./tools/mangle/index.js').mangle; },
  get link() { return require('./tools/link/index.js').link; },
  get Refusal() { return require('./tools/analyse/refusal.js').Refusal; },
};
