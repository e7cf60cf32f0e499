"use strict";

const { startProxy } = require("./proxy");

module.exports = { startProxy };
