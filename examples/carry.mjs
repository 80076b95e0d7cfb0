#!/usr/bin/env node
// Where a television is, between the reports of a watch.
//
//     css watch --cii URL | examples/carry.mjs [AFTER [SELECTOR]]
//
// For each report with ticks it prints both ticks, and then those of AFTER nanoseconds later; without AFTER, or with
// "", those of this moment. The programme may change before the next report: so for each `control` and `state` line it
// prints anew where the television is then. SELECTOR is that of the watch.
import { Lines, machineClock } from "../javascript/css-lines/css-lines.js";

const [after, selector] = process.argv.slice(2), lines = new Lines({ selector, clock: machineClock });
let report = null;

lines.on("line", (line) => {
  if (line.event === "report") report = line;
  if (!lines.television.report || !["report", "control", "state"].includes(line.event)) return;
  const told = line === report ? ["ticks", ...line.ticks] : [line.event];
  const now = lines.position(after ? BigInt(report.reading) + BigInt(after) : undefined);
  console.log(report.number, ...told, "then", now ? now.ticks.join(" ") : "unknown");
});
for await (const chunk of process.stdin) lines.push(chunk);
