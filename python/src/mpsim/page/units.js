// A row per job, with a box per visit: hatched while it waits, filled while it is served. A report doesn't say when a job waits in a tandem or a
// fork-join; such a visit is one box of its own pattern. Up and down go from job to job, left and right from visit to visit.
const ROWS = 40, WHOLE = ['tandem', 'forkjoin'], LOST = -1, HELD = -2;

// The windows to choose from: all in which a job comes or goes, or the only one.
function windowsOf({ width, first, chosen, only, rows }) {
  if (only) return [Number(chosen)];
  const numbers = new Set([Math.floor((chosen - first) / width)]);
  for (const [, visits] of rows) for (const [, arrive, , depart] of visits) for (const it of [arrive, depart]) numbers.add(Math.floor((it - first) / width));
  return [...numbers].sort((one, other) => one - other).map(it => Number(first) + it * width);
}
const overlaps = (since, until, begin, end) => since < end && (until > begin || since >= begin);
const isIn = ([, arrive, , depart], begin, end) => overlaps(arrive, depart, begin, end);

// The boxes of a visit: pairs of a kind and the times between which it is.
function boxesOf([, arrive, wait, depart], kind) {
  if (wait === LOST) return [['lost', arrive, arrive]];
  if (wait === HELD || kind === 'join') return [['wait', arrive, depart]];
  if (WHOLE.includes(kind)) return [['whole', arrive, depart]];
  if (kind === 'delay') return [['delay', arrive, depart]];
  const begin = Number(arrive) + Number(wait);
  return [...(wait > 0 ? [['wait', arrive, begin]] : []), ['busy', begin, depart]];
}
function visitTold([at, arrive, wait, depart], names, kinds, calendar, span) {
  const name = names[at], time = it => clock(it, calendar, secondsFor(span, calendar) > DAY ? 'both' : 'time');
  if (wait === LOST) return `${name}: lost at ${time(arrive)}`;
  if (wait === HELD) return `${name}: from ${time(arrive)} to the end, held`;
  const long = lengthTold(depart - arrive - wait, calendar), waited = `waited ${lengthTold(wait, calendar)}`;
  const after = kinds[name] === 'join' ? waited : kinds[name] === 'delay' ? `delay of ${long}` : `${waited}, service ${long}`;
  return `${name}: ${time(arrive)} to ${time(depart)}, ${after}`;
}
// The lane of each visit, so that none covers another: parts of a job can be at several stations at once.
function lanesOf(visits) {
  const ends = [];
  return visits.map(([, arrive, , depart]) => {
    const lane = ends.findIndex(it => it <= Number(arrive)), mine = lane < 0 ? ends.length : lane;
    ends[mine] = Number(depart);
    return mine;
  });
}

function unitRow([job, visits], begin, end, { names }, kinds) {
  const mine = visits.filter(it => isIn(it, begin, end)), lanes = lanesOf(mine), width = end - begin;
  const parts = visit => boxesOf(visit, kinds[names[visit[0]]]).filter(([, since, until]) => overlaps(since, until, begin, end));
  const boxes = mine.flatMap((visit, at) => parts(visit).map(([kind, since, until]) => {
    const left = Math.max(since, begin), right = Math.min(until, end);
    const style = `left:${(100 * (left - begin) / width).toFixed(2)}%;width:${(100 * (right - left) / width).toFixed(2)}%;top:${18 * lanes[at]}px`;
    const name = names[visit[0]], text = kind === 'lost' ? '×' : kind === 'wait' ? '' : name;
    return html('span', { class: `box ${kind}`, style, 'data-job': job, 'data-visit': at, 'data-station': name }, text);
  }));
  const track = html('div', { class: 'track', style: `height:${18 * Math.max(1, ...lanes.map(it => it + 1))}px` }, ...boxes);
  return { job, mine, row: html('div', { class: 'strip unit', 'data-job': job }, html('div', { class: 'named' }, shown(job)), track) };
}

function unitsOf(units, batch, begin, span, calendar, kinds) {
  const width = Number(units.width), end = begin + width;
  const there = units.rows.filter(([, visits]) => visits.some(it => isIn(it, begin, end)));
  const rows = there.slice(batch * ROWS, (batch + 1) * ROWS).map(it => unitRow(it, begin, end, units, kinds));
  const told = document.querySelector('[data-told=units]');
  let row = -1, at = 0;
  const go = (to, other) => {
    if (!rows.length) return;
    row = Math.max(0, Math.min(rows.length - 1, to));
    at = Math.max(0, Math.min(rows[row].mine.length - 1, other));
    rows.forEach(({ row: it }, number) => it.querySelectorAll('.box').forEach(box => box.classList.toggle('marked', number === row && Number(box.dataset.visit) === at)));
    told.textContent = `Record ${shown(rows[row].job)}, visit ${at + 1} of ${rows[row].mine.length} here, ${visitTold(rows[row].mine[at], units.names, kinds, calendar, span)}`;
  };
  rows.forEach(({ row: it }, number) => it.querySelectorAll('.box').forEach(box => box.addEventListener('click', () => go(number, Number(box.dataset.visit)))));
  const onKey = event => {
    const move = { ArrowDown: [row + 1, 0], ArrowUp: [row - 1, 0], ArrowRight: [Math.max(row, 0), row < 0 ? 0 : at + 1], ArrowLeft: [row, at - 1], Home: [0, 0], End: [rows.length - 1, 0] }[event.key];
    if (!move) return;
    event.preventDefault();
    go(...move);
  };
  const all = units.only ? Number(units.units) : there.length, left = units.only && all > there.length ? `; the page has the first ${shown(there.length)}` : '';
  const some = there.length > rows.length ? `; rows ${batch * ROWS + 1} to ${batch * ROWS + rows.length}` : '';
  const text = `${shown(all)} job${all === 1 ? '' : 's'} from ${timesTold(begin, end, span, calendar)}${left}${some}.`
    + (units.only ? ' Other times are left out: make the page again with --hour.' : '') + ' Numbers are records of the trace. Arrow keys go from job to job and from visit to visit.';
  return { rows: [...rows.map(it => it.row), axisBelow(begin, end, calendar)], batches: Math.ceil(there.length / ROWS), text, onKey };
}
