// A strip per station over one time axis, below one of the whole network. Left and right go from interval to interval, up and down from strip to strip;
// Enter selects the station. The heights of a strip: the number above, on its own scale, and the utilisation below.
const STRIP = 44, NUMBER = 28, BUSY = 12;
const countOf = value => value === null ? '–' : value.toLocaleString('en', { maximumSignificantDigits: 3 });

// A filled outline of values over intervals of width 1, the last of which ends at `last`, from a floor up.
function filled(values, last, floor, high, most) {
  const steps = values.map((value, at) => `V${(floor - high * value / (most || 1)).toFixed(2)}H${Math.min(at + 1, last).toFixed(3)}`);
  return `M0 ${floor}${steps.join('')}V${floor}Z`;
}
// The names of places on the time axis below strips.
function axisBelow(low, high, calendar) {
  const axis = timeAxis(high - low, calendar, ''), isLong = calendar.tick && secondsAt(high, calendar) - secondsAt(low, calendar) > DAY;
  const text = it => isLong && clock(it, calendar, 'time') === '00:00' ? clock(it, calendar, 'date') : axis.text(it);
  const marks = stepsOf(low, high, 5, calendar).map(it => {
    const share = 100 * (it - low) / (high - low || 1);
    return html('span', { style: `left:${share.toFixed(2)}%`, class: share > 96 ? 'end' : share < 4 ? 'begin' : '' }, text(it));
  });
  return html('div', { class: 'strip below' }, html('div', {}), html('div', { class: 'times' }, ...marks));
}

function stripOf(name, says, last, parts) {
  const drawn = svg('svg', { viewBox: `0 0 ${last.toFixed(3)} ${STRIP}`, preserveAspectRatio: 'none', 'aria-hidden': 'true' }, ...parts);
  const cross = svg('line', { class: 'cross', y1: 0, y2: STRIP, visibility: 'hidden' });
  drawn.append(cross);
  const row = html('div', { class: 'strip', 'data-strip': name }, html('div', { class: 'named' }, html('b', {}, name), html('span', {}, says)), drawn);
  return { row, cross, drawn };
}

function throughStrip({ came, left, lost }, last, unit) {
  const most = Math.max(1, ...came, ...left.map((it, at) => it + lost[at])), floor = STRIP - 2;
  let path = '';
  came.forEach((value, at) => {
    path += `${at ? 'L' : 'M'}${at} ${(floor - (STRIP - 4) * value / most).toFixed(2)}H${Math.min(at + 1, last).toFixed(3)}`;
  });
  const parts = [svg('path', { class: 'number', d: filled(left.map((it, at) => it + lost[at]), last, floor, STRIP - 4, most) }),
    svg('path', { class: 'lost', d: filled(lost, last, floor, STRIP - 4, most) }), svg('path', { class: 'arrivals', d: path })];
  return stripOf('throughput', `up to ${shown(most)} per ${unit.replace(/^1 /, '')}`, last, parts);
}
function stationStrip({ name, number, busy }, util, last) {
  const most = Math.max(...number), floor = STRIP - 2, rail = floor - BUSY;
  const parts = [svg('path', { class: 'number', d: filled(number, last, NUMBER, NUMBER - 2, most) })];
  if (busy) parts.push(svg('path', { class: 'busy', d: filled(busy, last, floor, BUSY, 100) }), svg('line', { class: 'rail', x1: 0, x2: last, y1: rail, y2: rail }));
  return stripOf(name, `up to ${countOf(most)} there${util === null ? '' : `, ${Math.floor(100 * util + .5)} % busy`}`, last, parts);
}

function stripsOf(line, span, calendar, utilOf, chosen, choose) {
  const width = Number(line.width), last = span / width, unit = lengthOf(width, calendar), { through, stations } = line;
  const strips = [...(through ? [throughStrip(through, last, unit)] : []), ...stations.map(it => stationStrip(it, utilOf(it.name), last))];
  const first = through ? 1 : 0, count = Math.ceil(last), told = document.querySelector('[data-told=stations]');
  let row = Math.max(0, stations.findIndex(it => it.name === chosen)) + first, at = -1;
  const say = () => {
    const time = timesTold(at * width, Math.min((at + 1) * width, span), span, calendar);
    if (row < first) {
      const away = through.lost[at] ? `, and ${shown(through.lost[at])} left without service` : '';
      return `${time}: ${shown(through.came[at])} came, ${shown(through.left[at])} left${away}`;
    }
    const { name, number, busy } = stations[row - first];
    return `${time}, ${name}: ${countOf(number[at])} there on average${busy ? `, busy ${countOf(busy[at])} % of the time` : ''}`;
  };
  const go = (to, other) => {
    at = Math.max(0, Math.min(count - 1, to));
    row = Math.max(0, Math.min(strips.length - 1, other));
    strips.forEach(({ row: it, cross }, number) => {
      fill(cross, { x1: Math.min(at + .5, last), x2: Math.min(at + .5, last), visibility: 'visible' }, []);
      it.classList.toggle('near', number === row);
    });
    told.textContent = say();
  };
  strips.forEach(({ row: it, drawn }, number) => {
    drawn.addEventListener('pointermove', event => {
      const box = drawn.getBoundingClientRect();
      go(Math.floor((event.clientX - box.left) / box.width * last), number);
    });
    if (number >= first) it.addEventListener('click', () => choose(stations[number - first].name));
  });
  const onKey = event => {
    const move = { ArrowLeft: [at - 1, row], ArrowRight: [at + 1, row], ArrowUp: [at, row - 1], ArrowDown: [at, row + 1], Home: [0, row], End: [count - 1, row] }[event.key];
    if (move) go(...move);
    else if (event.key === 'Enter' && row >= first) choose(stations[row - first].name);
    else return;
    event.preventDefault();
  };
  const text = `Intervals of ${unit}. ` + (through ? `Top: the jobs that leave the network in each interval (filled; darker: without service), and those that come (line). ` : '')
    + 'Each station: the mean number of jobs there (light, each on its own scale), and below it how busy its servers are, from 0 to 100 % (dark). '
    + (stations.some(({ name, busy }) => !busy && utilOf(name) !== null) ? 'Without the dark part, jobs don\'t show when a station\'s servers work. ' : '')
    + 'Arrow keys go from interval to interval and from station to station; Enter selects.';
  return { rows: [...strips.map(it => it.row), axisBelow(0, span, calendar)], text, onKey };
}
