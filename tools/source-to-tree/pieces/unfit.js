'use strict';

// Why a text isn't taken in pieces. Whoever converts it as a whole says what is wrong with it.
class Unfit extends Error {}

module.exports = { Unfit };
