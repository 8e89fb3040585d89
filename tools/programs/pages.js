'use strict';
// The memory of programs: for a large tree glibc takes it in large pages where the system gives any. Such a tree is spread over many
// megabytes, and to look up its small pages took a tenth of the time of its analysis. docs/speed.md has the figures.

const LARGE_PAGES = { GLIBC_TUNABLES: 'glibc.malloc.hugetlb=1' };

// For inputs of fewer bytes the time to clear large pages is as much as they spare.
const LARGE_INPUT = 1 << 22;

// The environment of a program whose first input this is, the largest one where it gets many. What the caller has set for glibc stays.
const environmentFor = (input) => (input.length < LARGE_INPUT ? process.env : { ...LARGE_PAGES, ...process.env });

module.exports = { environmentFor };
