/** The selector of the timeline that a watch wants where it is told no other one. */
export declare const PTS: string;

export declare function floorDiv(value: bigint, by: bigint): bigint;
export declare function ceilDiv(value: bigint, by: bigint): bigint;
export declare function rateOf(told: { unitsPerSecond: number; unitsPerTick: number }): Rate;

/** `unitsPerSecond / unitsPerTick` ticks a second. */
export interface Rate {
  unitsPerSecond: bigint;
  unitsPerTick: bigint;
}

/** The last control timestamp: at `wall` nanoseconds of the television's wall clock the tick is `content`. Where the
 * timeline isn't presented, or the text couldn't be read, `content` is null. */
export type Control =
  | { content: bigint; wall: bigint; speed: bigint; fault?: undefined }
  | { content: null; fault?: string };

/** A report with ticks: the two ends of the wall clock at its reading, and the error that its answer declared. The ends
 * are those that all answers allow together, where the line has them in `agreed`, else those of the narrowest answer. */
export interface Report {
  reading: bigint;
  wall: [bigint, bigint];
  error: bigint;
}

/** Where the television is from the first to the second of two readings of the watch's clock. */
export interface Position {
  readings: [bigint, bigint];
  /** The least and the greatest tick. */
  ticks: [bigint, bigint];
  /** The two ends of its wall clock, in nanoseconds. */
  wall: [bigint, bigint];
  /** By how much `wall` is wider because the readings differ, in nanoseconds. */
  added: bigint;
  rate: Rate;
  speed: bigint;
}

/** The options of the watch: its --selector, --local-error and --local-precision. */
export interface WatchOptions {
  selector?: string;
  localError?: bigint | number | string;
  localPrecision?: bigint | number | string;
}

/** What the lines have told, as long as it holds. */
export declare class Television {
  constructor(options?: WatchOptions);
  readonly selector: string;
  readonly visit: number | null;
  readonly report: Report | null;
  readonly control: Control | null;
  readonly rate: Rate | null;
  /** Why no position is known; null where one is. */
  readonly cause: string | null;
  /** Takes in a line as an object. It throws where the line hasn't the form of its event: `forget` then. */
  take(line: object): void;
  /** Nothing is known any more, and why. */
  forget(why: string): void;
  position(reading: bigint | [bigint, bigint]): Position | null;
}

/** Tells between which readings the watch's clock is now. */
export interface Clock {
  /** A line with this reading came now. */
  observe(reading: bigint): void;
  /** What was observed doesn't count any more. */
  reset(): void;
  readings(): [bigint, bigint] | null;
}

/** The clock of a watch that runs on this machine. It needs Node. */
export declare const machineClock: Clock;

export interface StreamClockOptions extends WatchOptions {
  /** The most that the quickest line of the last `window` was on its way: 20 ms. */
  delay?: bigint | number | string;
  /** Of how long the lines count: 5 s, up to the newest. One line at least has to come in it. */
  window?: bigint | number | string;
  /** The error of this machine's clock, in 1/256 ppm, and by how much it is rounded: 500 ppm and 0.1 ms. */
  error?: bigint | number | string;
  precision?: bigint | number | string;
  /** This machine's clock; it may not be set, nor stand still. */
  now?: () => bigint;
}

/** The clock of a watch on another machine, by when its lines come. */
export declare class StreamClock implements Clock {
  constructor(options?: StreamClockOptions);
  observe(reading: bigint): void;
  reset(): void;
  readings(): [bigint, bigint] | null;
}

export interface Events {
  /** A visit begins. */
  visit: { number: number; reading: bigint };
  control: Control;
  /** Why no position is known any more; null where one is known again. */
  cause: string | null;
  /** Each line that was taken. */
  line: { event: string; [member: string]: unknown };
  /** A line that can't be read. */
  unreadable: string;
}

/** The lines of a watch as they come: cut anywhere, or one at a time. */
export declare class Lines {
  constructor(options?: StreamClockOptions & { clock?: Clock });
  readonly television: Television;
  readonly clock: Clock;
  readonly cause: string | null;
  /** Calls a listener at each event of a kind. What it gives back takes the listener away. */
  on<Kind extends keyof Events>(kind: Kind, listener: (told: Events[Kind]) => void): () => void;
  /** Takes in what came, a text or bytes, cut anywhere. */
  push(chunk: string | Uint8Array): void;
  /** Takes in one whole line, such as the data of an event of the page's `lines`. */
  take(text: string): void;
  /** Another stream begins. */
  begin(): void;
  /** Where the television is now, or at a reading of the watch's clock; null where that isn't known. */
  position(reading?: bigint | [bigint, bigint] | null): Position | null;
}
