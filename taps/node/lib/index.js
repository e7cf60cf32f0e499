"use strict";

const { tapClient } = require("./client");
const { TapError } = require("./errors");
const { tapped } = require("./node");
const { readKey, redactor } = require("./redact");
const { decode, recordOf, tapStream } = require("./stream");
const { Tap } = require("./tap");

module.exports = { Tap, TapError, decode, readKey, recordOf, redactor, tapClient, tapStream, tapped };
