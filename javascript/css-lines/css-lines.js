// Where a television is, by the lines of `css watch`, between their reports too. css-lines.d.ts has its types, and
// docs/GUIDE.md how it is used. What may pass 2^53 is a BigInt. Errors are in 1/256 ppm, and times in nanoseconds.

/** A whole one, in 1/256 ppm. */
const F = 256_000_000n;
const SECOND = 1_000_000_000n;
export const PTS = "urn:dvb:css:timeline:pts";

/** Quotients, rounded down and up. A division of BigInts rounds towards 0. The divisor is above 0. */
export const floorDiv = (value, by) => value / by - (value % by < 0n ? 1n : 0n);
export const ceilDiv = (value, by) => -floorDiv(-value, by);

/** A rate as a line has it. */
export function rateOf({ unitsPerSecond, unitsPerTick }) {
  const rate = { unitsPerSecond: BigInt(unitsPerSecond), unitsPerTick: BigInt(unitsPerTick) };
  if (rate.unitsPerSecond < 1n || rate.unitsPerTick < 1n) throw new RangeError("no rate");
  return rate;
}

function controlOf({ contentTime, wallClockTime, timelineSpeedMultiplier }) {
  if (contentTime === null) return { content: null };
  return { content: BigInt(contentTime), wall: BigInt(wallClockTime), speed: BigInt(timelineSpeedMultiplier) };
}

function reportOf(line) {
  const [low, high] = (line.agreed ?? line.wall).map(BigInt);
  if (low > high) throw new RangeError("no span");
  return { reading: BigInt(line.reading), wall: [low, high], error: BigInt(line.error) };
}

function timelineOf({ timelineSelector, timelineProperties }) {
  return [timelineSelector, rateOf(timelineProperties)];
}

/** What the lines have told, as long as it holds. */
export class Television {
  visit = null;
  report = null;
  control = null;
  rate = null;
  #why = "no line has come";

  constructor({ selector = PTS, localError = 128_000n, localPrecision = 1000n } = {}) {
    this.selector = selector;
    this.local = { error: BigInt(localError), precision: BigInt(localPrecision) };
  }

  /** Takes in a line, as an object. It throws where the line hasn't the form of its event: `forget` then. */
  take(line) {
    switch (line.event) {
      case "visit":
        BigInt(line.reading);
        this.forget("no report has come yet");
        this.visit = line.number;
        break;
      case "end":
      case "slept":
        this.report = null;
        this.#why = line.event === "end" ? line.why : "slept";
        break;
      case "state":
        this.rate = this.#rateIn(line.state.timelines);
        break;
      case "control":
        this.control = line.fault === undefined ? controlOf(line.control) : { content: null, fault: line.fault };
        break;
      case "report":
        this.report = line.ticks ? reportOf(line) : null;
        this.#why = line.detail || line.cause;
    }
  }

  /** Nothing is known any more, and why. */
  forget(why) {
    this.visit = this.report = this.control = this.rate = null;
    this.#why = why;
  }

  /** The rate of the first timeline with the selector; null where it isn't known. */
  #rateIn(timelines) {
    const rates = (timelines === null ? [] : timelines.map(timelineOf)).filter(([name]) => name === this.selector);
    if (rates.length) return rates[0][1];
    return this.selector === PTS ? { unitsPerSecond: 90_000n, unitsPerTick: 1n } : null;
  }

  /** Why no position is known; null where one is. */
  get cause() {
    if (!this.report) return this.#why;
    if (this.control?.fault !== undefined) return `Unreadable ${this.control.fault}`;
    if (!this.control) return "NoTimestamp";
    if (this.control.content === null) return "Unavailable";
    return this.rate ? null : "NoRate";
  }

  /** Where it is at a reading of the watch's clock, or from the first to the second of two; null where that isn't
   * known. A reading before that of the last report counts as that. */
  position(reading) {
    if (this.cause !== null) return null;
    const readings = [reading].flat().map((each) => this.#notBefore(BigInt(each)));
    const first = readings[0], last = readings.at(-1), wall = this.#wall(first, last), known = this.#wall(first, first);
    const [one, other] = wall.map((end) => this.#tick(end));
    return { readings: [first, last], wall, ticks: one <= other ? [one, other] : [other, one],
      added: wall[1] - known[1], rate: this.rate, speed: this.control.speed };
  }

  #notBefore(reading) {
    return reading < this.report.reading ? this.report.reading : reading;
  }

  /** From where at the first reading to where at the second the television's wall clock is. */
  #wall(first, last) {
    const { reading, wall: [low, high], error } = this.report, blur = 2n * this.local.precision + 1n;
    return [low - 1n + floorDiv((F - error) * (first - reading - blur), F + this.local.error),
      high + 1n + ceilDiv((F + error) * (last - reading + blur), F - this.local.error)];
  }

  /** The tick at a time of its wall clock, by the last control timestamp and the rate of the last state. */
  #tick(wall) {
    const { content, wall: since, speed } = this.control;
    return content + floorDiv((wall - since) * speed * this.rate.unitsPerSecond, this.rate.unitsPerTick * SECOND);
  }
}

/** This machine's monotone clock, in nanoseconds. */
const ownReading = globalThis.process?.hrtime?.bigint ?? (() => BigInt(Math.round(performance.now() * 1e6)));

/** The clock of the watch, where the watch runs on this machine. It needs Node. */
export const machineClock = {
  observe() {},
  reset() {},
  readings() {
    const reading = ownReading();
    return [reading, reading];
  },
};

/** The greatest key of those that came last: of some time until the newest of them. */
class Greatest {
  kept = [];

  add(at, key, window) {
    while (this.kept.length && this.kept.at(-1).key <= key) this.kept.pop();
    this.kept.push({ at, key });
    while (this.kept[0].at < at - window) this.kept.shift();
  }

  get key() {
    return this.kept[0]?.key;
  }
}

/** The clock of a watch on another machine, by when its lines come. A line comes after its reading: so the clock has
 * gone on by at least what has gone by here since it came. And of the lines of some time one at least was quick. */
export class StreamClock {
  #early = new Greatest();
  #late = new Greatest();

  constructor({ delay = 20_000_000n, window = 5n * SECOND, error = 128_000n, precision = 100_000n,
    localError = 128_000n, localPrecision = 1000n, now = ownReading } = {}) {
    this.delay = BigInt(delay);
    this.window = BigInt(window);
    this.blur = 2n * (BigInt(precision) + BigInt(localPrecision)) + 1n;
    this.now = now;
    this.slowest = { there: F - BigInt(localError), here: F + BigInt(error) };
    this.fastest = { there: F + BigInt(localError), here: F - BigInt(error) };
  }

  /** A line with this reading came now. */
  observe(reading) {
    const at = this.now();
    const key = ({ there, here }) => reading * here - at * there;
    this.#early.add(at, key(this.slowest), this.window);
    this.#late.add(at, key(this.fastest), this.window);
  }

  /** Nothing counts that was observed: one of the clocks stood still, or it is another one. */
  reset() {
    this.#early = new Greatest();
    this.#late = new Greatest();
  }

  /** From where to where the watch's clock is now; null before the first line. */
  readings() {
    if (this.#early.key === undefined) return null;
    const now = this.now();
    return [floorDiv(this.#early.key + now * this.slowest.there, this.slowest.here) - this.blur,
      ceilDiv(this.#late.key + now * this.fastest.there, this.fastest.here) + this.blur + this.delay];
  }
}

/** The lines as they come: cut anywhere, or one at a time. */
export class Lines {
  #decoder = new TextDecoder();
  #rest = "";
  #listeners = { visit: [], control: [], cause: [], line: [], unreadable: [] };
  #latest = null;

  constructor({ clock, ...options } = {}) {
    this.television = new Television(options);
    this.clock = clock ?? new StreamClock(options);
    this.cause = this.television.cause;
  }

  /** Calls a listener at each event of a kind. What it gives back takes the listener away. */
  on(kind, listener) {
    const listeners = this.#listeners[kind];
    listeners.push(listener);
    return () => void (this.#listeners[kind] = this.#listeners[kind].filter((each) => each !== listener));
  }

  #tell(kind, value) {
    for (const listener of this.#listeners[kind]) listener(value);
  }

  /** Takes in what came of the lines, a text or bytes, cut anywhere. */
  push(chunk) {
    this.#rest += typeof chunk === "string" ? chunk : this.#decoder.decode(chunk, { stream: true });
    const lines = this.#rest.split("\n");
    this.#rest = lines.pop();
    for (const line of lines) this.take(line);
  }

  /** Another stream begins: of the last line the end may be missing, and nothing is known any more. */
  begin() {
    this.#decoder = new TextDecoder();
    this.#rest = "";
    this.#latest = null;
    this.clock.reset();
    this.television.forget("no line has come");
    this.#judge();
  }

  /** Takes in one whole line. One that can't be read ends what is known. */
  take(text) {
    if (text === "") return;
    const line = this.#read(text);
    if (line) this.#tell("line", line);
    else this.#tell("unreadable", text);
    if (line?.event === "visit") this.#tell("visit", { number: line.number, reading: BigInt(line.reading) });
    if (line?.event === "control") this.#tell("control", this.television.control);
    this.#judge();
  }

  /** The line as an object; null where it can't be read. */
  #read(text) {
    try {
      const line = JSON.parse(text);
      this.#observe(line);
      this.television.take(line);
      return line;
    } catch (fault) {
      if (![SyntaxError, TypeError, RangeError].some((kind) => fault instanceof kind)) throw fault;
      this.television.forget("a line couldn't be read");
      return null;
    }
  }

  /** A new watch may have another clock, and a reading that falls is one of another clock. */
  #observe(line) {
    const told = line.reading ?? line.landed;
    if (told === undefined) return;
    const reading = BigInt(told), begins = line.event === "visit" && line.number === 1;
    if (begins || line.event === "slept" || (this.#latest !== null && reading < this.#latest)) this.clock.reset();
    this.#latest = reading;
    this.clock.observe(reading);
  }

  #judge() {
    const { cause } = this.television;
    if (cause === this.cause) return;
    this.cause = cause;
    this.#tell("cause", cause);
  }

  /** Where the television is now, or at a reading of the watch's clock; null where that isn't known. */
  position(reading = this.clock.readings()) {
    return reading === null ? null : this.television.position(reading);
  }
}
