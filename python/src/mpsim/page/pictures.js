// Elements of the page and of charts.
const fill = (element, attributes, children) => {
  for (const [name, value] of Object.entries(attributes)) element.setAttribute(name, value);
  element.append(...children);
  return element;
};
const html = (name, attributes = {}, ...children) => fill(document.createElement(name), attributes, children);
const svg = (name, attributes = {}, ...children) => fill(document.createElementNS('http://www.w3.org/2000/svg', name), attributes, children);

const WIDE = 560, HIGH = 250, LEFT = 56, RIGHT = 46, TOP = 12, BOTTOM = 40, FLOOR = HIGH - BOTTOM;

// A chart with two axes: x has low, high, its name, and the text of a place; y has high, and a text. The pointer and the arrow keys step through its
// places; `read` describes each.
function picture(name, says, x, y, places, read) {
  const across = value => LEFT + (WIDE - LEFT - RIGHT) * (value - x.low) / (x.high - x.low || 1);
  const up = value => FLOOR - (FLOOR - TOP) * value / (y.high || 1);
  const label = `${says}. Step through it with the arrow keys.`;
  const root = svg('svg', { viewBox: `0 0 ${WIDE} ${HIGH}`, role: 'img', tabindex: 0, 'aria-label': label, 'data-picture': name });
  const grid = svg('g', { class: 'grid' }), axis = svg('g', { class: 'axis' });
  for (const value of stepsOf(0, y.high, 5, y.calendar)) {
    grid.append(svg('line', { x1: LEFT, x2: WIDE - RIGHT, y1: up(value), y2: up(value) }));
    axis.append(svg('text', { x: LEFT - 6, y: up(value) + 4, 'text-anchor': 'end' }, y.text(value)));
  }
  for (const value of x.marks || stepsOf(x.low, x.high, 6, x.calendar)) {
    axis.append(svg('line', { x1: across(value), x2: across(value), y1: FLOOR, y2: FLOOR + 5 }),
      svg('text', { x: across(value), y: FLOOR + 17, 'text-anchor': 'middle' }, x.text(value)));
  }
  axis.append(svg('line', { x1: LEFT, x2: WIDE - RIGHT, y1: FLOOR, y2: FLOOR }),
    svg('text', { x: (LEFT + WIDE - RIGHT) / 2, y: HIGH - 6, 'text-anchor': 'middle' }, x.name));
  const cross = svg('line', { class: 'cross', y1: TOP, y2: FLOOR, visibility: 'hidden' });
  root.append(grid, axis, cross);
  const told = html('output', { 'data-told': name, 'aria-live': 'polite' });
  let at = -1;
  const go = to => {
    at = Math.max(0, Math.min(places.length - 1, to));
    fill(cross, { x1: across(places[at]), x2: across(places[at]), visibility: 'visible' }, []);
    told.textContent = read(at);
  };
  root.addEventListener('pointermove', event => {
    const box = root.getBoundingClientRect(), pointed = (event.clientX - box.left) * WIDE / box.width;
    go(places.reduce((near, it, index) => Math.abs(across(it) - pointed) < Math.abs(across(places[near]) - pointed) ? index : near, 0));
  });
  root.addEventListener('keydown', event => {
    const to = { ArrowLeft: at - 1, ArrowRight: at + 1, Home: 0, End: places.length - 1, PageDown: at + 10, PageUp: at - 10 }[event.key];
    if (to === undefined) return;
    event.preventDefault();
    go(to);
  });
  return { root, told, across, up };
}

// The seconds on the clock from time 0 to a tick.
const secondsFor = (span, calendar) => secondsAt(span, calendar) - secondsAt(0, calendar);

// Waits over time: a step per interval, a gap if no job departed; below them bars of arrivals, and of those that were lost or held.
function timesTold(begin, end, span, calendar) {
  const time = tick => clock(tick, calendar, secondsFor(span, calendar) > DAY ? 'both' : 'time');
  return `${time(begin)} to ${time(end)}`;
}
function pieceTold({ width, came, lost, p50, p90, max }, at, span, calendar) {
  const gone = lost[at] ? `, ${shown(lost[at])} lost or held` : '';
  const text = `${timesTold(at * width, (at + 1) * width, span, calendar)}: ${shown(came[at])} arrived${gone}`;
  if (p50[at] === null) return text;
  const [half, most, longest] = [p50, p90, max].map(it => waitOf(it[at], calendar));
  return `${text}; half waited ${half} or less, 9 of 10 ${most} or less, the longest wait was ${longest}`;
}
function stairs(values, width, across, up) {
  let path = '', isOpen = false, end = null;
  values.forEach((value, at) => {
    if (value !== null) {
      const y = up(Number(value)), to = across((at + 1) * width);
      path += `${isOpen ? 'L' : 'M'}${across(at * width).toFixed(1)} ${y.toFixed(1)}H${to.toFixed(1)}`;
      end = [to, y];
    }
    isOpen = value !== null;
  });
  return { path, end };
}
const timeAxis = (end, calendar, name) => ({ low: 0, high: end, calendar, name,
  text: value => clock(value, calendar, secondsFor(end, calendar) < 4 * DAY ? 'time' : 'date') });
// Lines over time, from pairs of a name and a class, each with its name at its end.
function drawLines(p, series, kinds) {
  const ends = [];
  for (const [name, kind] of kinds) {
    const line = stairs(series[name], series.width, p.across, p.up);
    p.root.append(svg('path', { class: kind, d: line.path }));
    if (line.end) ends.push([name, kind, line.end[1]]);
  }
  // Names of lines that end close together go one below the other.
  ends.sort((one, other) => one[2] - other[2]);
  ends.forEach((it, at) => { if (at) it[2] = Math.max(it[2], ends[at - 1][2] + 12); });
  const past = Math.max(0, ...ends.map(it => it[2] - FLOOR));
  for (const [name, kind, y] of ends) p.root.append(svg('text', { class: kind, x: WIDE - RIGHT + 4, y: y - past + 4 }, name));
}
function overTime(series, span, calendar) {
  const { width, came, lost } = series, end = came.length * width;
  const top = Math.max(1, ...series.max.map(Number)), most = Math.max(1, ...came);
  const axis = timeAxis(end, calendar, calendar.tick ? 'time of arrival' : 'arrival, ticks');
  const p = picture('time', 'Waits by time of arrival', axis, { high: top, calendar: { tick: calendar.tick, start: 0 }, text: it => waitOf(it, calendar) }, came.map((_, at) => (at + .5) * width),
    at => pieceTold(series, at, span, calendar));
  const bar = (value, kind, at) => {
    const high = 46 * value / most, wide = Math.max(p.across(width) - p.across(0) - .4, .6);
    if (value) p.root.append(svg('rect', { class: kind, x: p.across(at * width), y: FLOOR - high, width: wide, height: high }));
  };
  came.forEach((value, at) => { bar(value, 'came', at); bar(lost[at], 'lost', at); });
  drawLines(p, series, [['max', 'max'], ['p90', 'p90'], ['p50', 'p50']]);
  const bars = `Bars: arrivals${lost.some(it => it) ? ', and in the darker colour how many of them were lost or held' : ''}.`;
  return html('figure', {}, html('h3', {}, 'Waits over time'), p.root, p.told, html('figcaption', {}, `Intervals of ${lengthOf(width, calendar)}. Lines: the waits${calendar.tick ? '' : ', in ticks'}. ${bars}`));
}

// The number in the node over time: the mean and the maximum of each interval. The last interval ends with the run; the axis is that of the waits.
function numberTold({ width, mean, max }, at, span, calendar) {
  const times = timesTold(at * width, Math.min((at + 1) * width, span), span, calendar);
  return `${times}: ${shown(mean[at])} in the node on average, ${shown(max[at])} at most`;
}
function numberOverTime(series, span, calendar) {
  const { width, mean, max } = series, end = (Math.floor(span / width) + 1) * width;
  const axis = timeAxis(end, calendar, calendar.tick ? 'time' : 'time, ticks'), y = { high: Math.max(1, ...max), text: shown };
  const p = picture('number', 'Number in the node over time', axis, y, mean.map((_, at) => (at + .5) * width),
    at => numberTold(series, at, span, calendar));
  drawLines(p, series, [['max', 'max'], ['mean', 'p50']]);
  return html('figure', {}, html('h3', {}, 'Number in the node over time'), p.root, p.told,
    html('figcaption', {}, `The mean and the maximum in each interval of ${lengthOf(width, calendar)}. Lost jobs don't count.`));
}

// The share by wait, of those that departed; and a field for a time, with the shares of arrivals and of departures served within it. It begins with
// the time that the page was made for, if there is one.
function byWait(waits, figure, within, { tick }) {
  const { came, wait, count } = waits, departed = count[count.length - 1], high = Number(wait[wait.length - 1]) || 1;
  const text = it => waitOf(it, { tick }), axis = { low: 0, high, name: tick ? 'wait' : 'wait, ticks', text, calendar: { tick, start: 0 } };
  const p = picture('waits', 'Share of those that departed, by wait', axis,
    { high: 1, text: it => `${Math.round(100 * it)} %` }, wait.map(Number),
    at => `${percent(count[at] / departed)} waited ${text(wait[at])} or less`);
  const isStep = wait.length < 60;
  const path = wait.map((it, at) => {
    const x = p.across(Number(it)).toFixed(1), y = p.up(count[at] / departed).toFixed(1);
    return isStep ? `H${x}V${y}` : `L${x} ${y}`;
  });
  p.root.append(svg('path', { class: 'share', d: `M${p.across(0)} ${p.up(0)}${path.join('')}` }));
  ['p50', 'p90', 'p99'].forEach((name, at) => {
    const value = figure(name);
    if (value === null) return;
    // Each on its own line, so that none covers another.
    const x = p.across(Number(value)), isLast = x > WIDE - RIGHT - 60, y = FLOOR - 44 + 17 * at;
    p.root.append(svg('g', { class: 'mark' }, svg('line', { x1: x, x2: x, y1: TOP, y2: FLOOR }),
      svg('text', { x: isLast ? x - 4 : x + 4, y, 'text-anchor': isLast ? 'end' : 'start' }, `${name} ${text(value)}`)));
  });
  const field = html('input', { type: 'number', min: 0, step: 1, id: 'ticks', size: 8, value: within ?? figure('p50') ?? Math.round(high / 2) });
  const ofAll = html('b', { id: 'of-all' }), ofDeparted = html('b', { id: 'of-departed' });
  const tell = () => {
    const counts = countsWithin(waits, Number(field.value || 0));
    ofAll.textContent = shareOf(counts, came);
    ofDeparted.textContent = shareOf(counts, departed);
  };
  field.addEventListener('input', tell);
  tell();
  const told = html('p', {}, html('label', {}, 'Served within ', field, ' ticks: '), ofAll, ` of the ${shown(came)} that arrived, `, ofDeparted,
    ` of the ${shown(departed)} that departed.`);
  return html('figure', {}, html('h3', {}, 'How long they waited'), p.root, p.told, told,
    html('figcaption', {}, `The curve counts those that departed. It is exact at ${shown(wait.length)} waits.`));
}

// Which of the parts of labels is the axis: the number with the most values, of those of one length. The others name the curve.
const isNumber = it => it.trim() !== '' && Number.isFinite(Number(it));
function axisOf(parts) {
  if (parts.some(it => it.length !== parts[0].length)) return -1;
  const kinds = parts[0].map((_, at) => parts.every(it => isNumber(it[at])) ? new Set(parts.map(it => Number(it[at]))).size : 0);
  return Math.max(...kinds) > 1 || parts[0].length === 1 && kinds[0] ? kinds.indexOf(Math.max(...kinds)) : -1;
}

// A figure of a node in several runs, over their labels if these are numbers, else side by side. Of labels with several parts each curve has those
// that differ in its axis only.
const STROKES = ['', '7 4', '2 4', '10 3 2 3', '5 2 1 2 1 2'];
function curveOf(parts, labels, values, chosen, says, choose) {
  const place = axisOf(parts), isPlain = place >= 0;
  const xs = isPlain ? parts.map(it => Number(it[place])) : labels.map((_, at) => at);
  const curves = parts.map(it => isPlain ? it.filter((_, at) => at !== place).join(', ') : ''), names = [...new Set(curves)];
  const low = Math.min(...xs), high = Math.max(...xs), margin = (high - low || 1) * .04;
  const numbers = values.map(it => it === null ? null : Number(it));
  const axis = { low: low - margin, high: high + margin, name: 'run', marks: isPlain ? undefined : xs, text: it => isPlain ? shown(it) : labels[it] };
  const p = picture('curve', says, axis, { high: Math.max(...numbers, 0), text: shown }, xs, at => `${labels[at]}: ${shown(values[at])}`);
  const order = xs.map((_, at) => at).filter(at => numbers[at] !== null).sort((one, other) => xs[one] - xs[other]);
  names.forEach((name, number) => {
    const mine = order.filter(at => curves[at] === name), last = mine[mine.length - 1];
    const path = mine.map((at, index) => `${index ? 'L' : 'M'}${p.across(xs[at])} ${p.up(numbers[at])}`).join('');
    const stroke = STROKES[number % STROKES.length];
    p.root.append(svg('path', { class: 'share', d: path, 'data-curve': name, ...(stroke ? { 'stroke-dasharray': stroke } : {}) }));
    const beside = { class: 'curve', 'text-anchor': 'end' };
    if (name && mine.length) p.root.append(svg('text', { ...beside, x: p.across(xs[last]) - 8, y: p.up(numbers[last]) - 9 }, name));
  });
  for (const at of order) {
    const dot = svg('circle', { class: at === chosen ? 'dot marked' : 'dot', cx: p.across(xs[at]), cy: p.up(numbers[at]), r: at === chosen ? 7 : 5,
      'data-v': values[at], 'data-label': labels[at] });
    dot.addEventListener('click', () => choose(at));
    p.root.append(dot);
  }
  return html('figure', {}, p.root, p.told);
}
