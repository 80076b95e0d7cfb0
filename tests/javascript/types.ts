// What css-lines.d.ts has to take; a compiler of TypeScript reads it, and nothing runs it.
import {
  Lines, StreamClock, Television, floorDiv, machineClock, PTS, type Control, type Position,
} from "../../javascript/css-lines/css-lines";

const here = new Lines({ clock: machineClock, selector: PTS, localError: 5n });
const far = new Lines({ delay: 20_000_000n, window: "5", now: () => 5n });
const off: () => void = here.on("visit", ({ number, reading }) => floorDiv(reading, BigInt(number)));
here.on("cause", (cause: string | null) => cause);
here.on("control", (told: Control) => told.content === null ? told.fault : told.wall + told.speed);
const position: Position | null = here.position(5n) ?? far.position();
if (position) floorDiv(position.ticks[0] + position.added, position.rate.unitsPerSecond);
const television = new Television();
television.take({ event: "visit" });
television.forget("why");
const [first, last]: [bigint, bigint] = new StreamClock({ error: 5 }).readings() ?? [0n, 0n];
off();
export { first, last };
