import taps from "./index.js";

export const { Tap, TapError, decode, readKey, recordOf, redactor, tapClient, tapStream, tapped } = taps;
