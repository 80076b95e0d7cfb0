// Makes the steps that stand on standard input, as JSON, with javascript/css-lines, and prints what comes of each.
import { readFileSync } from "node:fs";
import { Lines, StreamClock } from "../../javascript/css-lines/css-lines.js";

const told = (key, value) => typeof value === "bigint" ? String(value) : value;
const print = (kind, value) => console.log(JSON.stringify([kind, value], told));
let now = 0n;

const { options = {}, clock = {}, steps } = JSON.parse(readFileSync(0));
const stream = new StreamClock({ ...clock, now: () => now });
const lines = new Lines({ ...options, clock: stream });
for (const kind of ["visit", "control", "cause", "unreadable"]) lines.on(kind, (value) => print(kind, value));
const heard = [];
lines.on("line", ({ event }) => heard.push(event))();

const MAKES = {
  push: (bytes) => lines.push(Buffer.from(bytes, "base64")),
  text: (text) => lines.push(text),
  take: (line) => lines.take(line),
  begin: () => lines.begin(),
  now: (reading) => void (now = BigInt(reading)),
  at: (reading) => print("at", lines.position(BigInt(reading))),
  here: () => print("here", { position: lines.position(), readings: stream.readings() }),
};
for (const [verb, value] of steps) MAKES[verb](value);
if (heard.length) throw new Error("a listener that was taken away was called");
