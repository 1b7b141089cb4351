// Numbers, times and shares: formatting and arithmetic. A number that a double can't hold comes as text.
const shown = value => value === null || value === undefined ? '–'
  : typeof value === 'string' ? BigInt(value).toLocaleString('en') : value.toLocaleString('en', { maximumFractionDigits: 4 });
const percent = share => `${(100 * share).toFixed(1)} %`;

// The time of day of a tick if the page knows the length of a tick, with the date if it knows that too, else with the number of the day.
// Dates end with the year 9999; beyond it, if times aren't really ticks, days have numbers.
const DAY = 86400, LAST = Date.UTC(9999, 11, 31);
const twoDigits = value => String(value).padStart(2, '0');
function dateOf(day, calendar) {
  const date = new Date(Date.parse(calendar.date + 'T00:00Z') + day * DAY * 1000);
  return date <= LAST ? date.toISOString().slice(0, 10) : `day ${day + 1}`;
}
// The seconds on the clock, after the midnight before time 0. If ticks count working time, `working` has the first tick of each stretch and its seconds.
function secondsAt(ticks, calendar) {
  if (!calendar.working) return calendar.start + ticks * calendar.tick;
  let low = 0, high = calendar.working.length;
  while (high - low > 1) {
    const middle = (low + high) >> 1;
    if (calendar.working[middle][0] <= ticks) low = middle; else high = middle;
  }
  const [begin, seconds] = calendar.working[low];
  return seconds + (ticks - begin) * calendar.tick;
}
function clock(ticks, calendar, parts) {
  if (!calendar.tick) return shown(ticks);
  const seconds = Math.round(secondsAt(ticks, calendar)), day = Math.floor(seconds / DAY), left = seconds - day * DAY;
  const time = [Math.floor(left / 3600), Math.floor(left / 60) % 60, ...(left % 60 ? [left % 60] : [])].map(twoDigits).join(':');
  return { date: dateOf(day, calendar), time, both: `${dateOf(day, calendar)} ${time}` }[parts];
}

// A length of time: in seconds, minutes and hours if the page knows the length of a tick. That of an interval is a whole number of one unit.
function lengthTold(ticks, { tick }) {
  if (!tick) return `${shown(ticks)} tick${Number(ticks) === 1 ? '' : 's'}`;
  const seconds = Math.round(ticks * tick * 10) / 10, minutes = Math.floor(seconds / 60), hours = Math.floor(minutes / 60);
  if (minutes < 1) return `${shown(seconds)} s`;
  return hours ? `${shown(hours)} h${minutes % 60 ? ` ${minutes % 60} min` : ''}` : `${minutes} min${Math.floor(seconds % 60) ? ` ${Math.floor(seconds % 60)} s` : ''}`;
}
const waitOf = (ticks, calendar) => calendar.tick ? lengthTold(ticks, calendar) : shown(ticks);
function lengthOf(ticks, { tick }) {
  const seconds = Math.round(ticks * tick), units = [[DAY, 'd'], [3600, 'h'], [60, 'min'], [1, 's']];
  const [size, unit] = units.find(([it]) => seconds >= it && seconds % it === 0) || [];
  return tick && unit ? `${shown(seconds / size)} ${unit}` : lengthTold(ticks, { tick });
}

// About `count` places on an axis: at 1, 2 or 5 with zeros, or, on a time axis, at full minutes, hours and days.
const CLOCK_STEPS = [1, 2, 5, 10, 15, 20, 30, 60, 120, 300, 600, 900, 1800, 3600, 7200, 10800, 14400, 21600, 43200, ...[1, 2, 7, 14, 28, 91, 182, 364].map(it => it * DAY)];
function stepsOf(low, high, count, calendar) {
  const rough = (high - low) / count || 1, power = 10 ** Math.floor(Math.log10(rough));
  if (calendar && calendar.working) {
    // Marks at the beginnings of stretches, if there are several; of days, if the axis has dates.
    const dayOf = tick => Math.floor(secondsAt(tick, calendar) / DAY), isDated = secondsAt(high, calendar) - secondsAt(low, calendar) >= 4 * DAY;
    const begins = calendar.working.map(([tick]) => tick).filter(tick => tick >= low && tick <= high)
      .filter((tick, at, all) => !isDated || at === 0 || dayOf(tick) > dayOf(all[at - 1]));
    const every = Math.ceil(begins.length / count);
    if (begins.length > 1) return begins.filter((_, at) => at % every === 0);
  }
  let step = [1, 2, 5, 10].find(it => it * power >= rough) * power, offset = 0;
  if (calendar && calendar.tick) {
    step = (CLOCK_STEPS.find(it => it / calendar.tick >= rough) || step * calendar.tick) / calendar.tick;
    offset = (calendar.working ? secondsAt(low, calendar) - low * calendar.tick : calendar.start) / calendar.tick;
  }
  if (calendar) step = Math.max(step, 1);
  const found = [];
  for (let at = Math.ceil((low + offset) / step) * step - offset; at <= high + step * 1e-9; at += step) found.push(at);
  return found;
}

// How many of those that departed waited at most this many ticks: the lowest and the highest count that the stored waits allow.
function countsWithin(waits, ticks) {
  const { wait, count } = waits;
  let at = -1;
  while (at + 1 < wait.length && wait[at + 1] <= ticks) at++;
  const low = at < 0 ? 0 : count[at];
  const isExact = at < 0 || at === wait.length - 1 || Number(wait[at]) === ticks;
  return [low, isExact ? low : count[at + 1] - 1];
}
// The share of `whole` as text; two bounds if they differ.
function shareOf([low, high], whole) {
  const texts = [percent(low / whole), percent(high / whole)];
  return texts[0] === texts[1] ? texts[0] : texts.join(' to ');
}

// The step of the load scale, and the lines of a node's box, as network.py writes them for the first run.
const TOLD_BY_IN = ['source', 'split', 'fork', 'delay', 'trunk'];
const stepOf = util => util === null || util === undefined ? 0 : Math.min(Math.floor(util * 5), 4) + 1;
function figuresOf(kind, figure) {
  const name = TOLD_BY_IN.includes(kind) ? 'in' : ['p90', 'max'].find(it => figure(it) !== null) ?? 'mean wait';
  const text = name === 'in' ? `${shown(figure('in'))} in` : `${name} ${shown(figure(name))}`;
  return text + (figure('lost') ? `, lost ${shown(figure('lost'))}` : figure('held') ? `, held ${shown(figure('held'))}` : '');
}
// Fits a text of a box into its width, as network.py does.
const LETTERS = [['ijl ,.\'|:', .36], ['frt/_-', .5], ['mwMW%', 1.05]], ROOM = 130;
function fitted(element, text, size) {
  const wide = [...text].reduce((sum, it) => sum + (LETTERS.find(([letters]) => letters.includes(it)) || [, .72])[1], 0) * size;
  element.textContent = text;
  if (wide > ROOM) fill(element, { textLength: ROOM, lengthAdjust: 'spacingAndGlyphs' }, []);
  else for (const name of ['textLength', 'lengthAdjust']) element.removeAttribute(name);
}
function saidOf(name, kind, figure) {
  const util = figure('util');
  return `${name}, ${kind}, ${util === null ? 'no servers' : `util ${util.toFixed(4)}`}, ${figuresOf(kind, figure)}`;
}

// Sorts rows by value: as numbers if all are, else as text. Missing values go last in both directions, and equal ones keep their order.
function sorted(rows, valueOf, isUp) {
  const pairs = rows.map(row => [valueOf(row), row]), isNumber = pairs.every(([value]) => value === '' || !isNaN(value));
  const compare = (one, other) => isNumber ? one - other : one < other ? -1 : one > other ? 1 : 0;
  pairs.sort(([one], [other]) => one === '' || other === '' ? (one === '') - (other === '') : compare(one, other) * (isUp ? 1 : -1));
  return pairs.map(([, row]) => row);
}
