"use strict";

/**
 * What ends a tap, or keeps it from being begun. `code` names it: the names of docs/FORMAT.md where the
 * auditor would refuse the line, and some of our own.
 */
class TapError extends Error {
  /**
   * @param {string} code
   * @param {string} message
   * @param {{ cause?: unknown, record?: object }} [details]
   */
  constructor(code, message, { cause, record } = {}) {
    super(message, cause === undefined ? undefined : { cause });
    this.name = "TapError";
    this.code = code;
    if (record !== undefined) this.record = record;
  }
}

module.exports = { TapError };
