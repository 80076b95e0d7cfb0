// css watch .. | follow.mjs COUNT: where the television is, by both clocks, COUNT times. Each line is JSON: a position,
// the readings of the machine's clock around it, and the control timestamp.
import { Lines, StreamClock, machineClock } from "../../javascript/css-lines/css-lines.js";

const told = (key, value) => typeof value === "bigint" ? String(value) : value;
// The delay that is declared is one that no busy machine exceeds.
const clocks = { machine: machineClock, stream: new StreamClock({ delay: 60_000_000_000n }) };
const all = Object.entries(clocks).map(([name, clock]) => [name, new Lines({ clock })]);
let left = Number(process.argv[2]);

function look() {
  for (const [name, lines] of all) {
    const before = process.hrtime.bigint(), position = lines.position(), after = process.hrtime.bigint();
    const { cause, television: { control, visit } } = lines;
    console.log(JSON.stringify({ name, before, after, position, control, cause, visit }, told));
  }
  if (all.every(([, lines]) => lines.cause === null)) left -= 1;
  if (left === 0) process.exit(0);
}

setInterval(look, 50);
for await (const chunk of process.stdin) for (const [, lines] of all) lines.push(chunk);
