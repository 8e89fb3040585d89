#!/bin/bash
# Tries all commands on source files, as people call them, and the commands that documents show. Its status is 1 where something
# isn't as wanted. Without Node, or without a library that package.json names, it says so and tries nothing.
set -u
cd "$(dirname "$0")/.." || exit 1

if ! command -v node >/dev/null 2>&1; then
    echo "test-tools: no node here, nothing tried (tools/setup.sh installs it)"
    exit 0
fi
missing="$(node -e '
const { load } = require("./tools/source-to-tree/load.js");
// The main module of this one asks for a Node that is built as Debian builds it; linking takes it in parts.
const parts = { "enhanced-resolve": "enhanced-resolve/lib/ResolverFactory" };
const has = (name) => {
  try { load(parts[name] || name); return true; } catch { return false; }
};
console.log([...Object.keys(require("./package.json").dependencies), "eslint-scope"].filter((name) => !has(name)).join(" "));')"
if [ -n "$missing" ]; then
    echo "test-tools: not installed: $missing; nothing tried (tools/setup.sh installs them)"
    exit 0
fi

failed=0

# Runs a test, and tells its last line, or all that it said where it failed.
try() {
    local log started
    log="$(mktemp)"
    started=$SECONDS
    if "$@" >"$log" 2>&1; then
        echo "test-tools: $* ($((SECONDS - started)) s): $(tail -n 1 "$log")"
    else
        echo "test-tools: FAILED: $*"
        cat "$log"
        failed=1
    fi
    rm -f "$log"
}

try tools/test-sources.sh --list tools/test-sources.list
try tools/test-programs.sh
try tools/test-runs.sh
try bin/bolgwyr check samples/source/prices.js
try tools/test-check.sh
try node tools/test-serve.js
try node tools/test-rename.js
try node tools/test-link.js
try node tools/test-mangle.js
try tools/test-install.sh
try node tools/test-lsp.js
try node tools/doc-examples/main.js
exit $failed
