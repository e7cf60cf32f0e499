"use strict";

const { join } = require("./join");

module.exports = { join };
