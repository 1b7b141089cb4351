// The selection, and what depends on it.
const data = JSON.parse(document.getElementById('data').textContent);
const by = id => document.getElementById(id);
const valuesOf = (run, node) => data.runs[run].nodes[node] || data.columns.map(() => null);
const figureOf = (run, node) => name => valuesOf(run, node)[data.columns.indexOf(name)];
const state = { run: 0, node: data.node, figure: data.columns[0], window: 0, batch: 0 };

// The first figure shown is one that differs between the runs: the requested share, or else one of these.
if (data.columns[0] === 'in') {
  const differs = name => new Set(data.runs.map((_, run) => figureOf(run, state.node)(name))).size > 1;
  state.figure = ['p90', 'share lost', 'mean wait', 'util'].find(differs) || 'p90';
}

// Waits are in seconds, minutes and hours if the page knows the length of a tick; in tables they are in ticks.
const WAITS = ['mean wait', 'p50', 'p90', 'p99', 'max'];
function showCards() {
  by('cards').replaceChildren(...valuesOf(state.run, state.node).map((value, at) =>
    html('div', { class: 'card', 'data-figure': data.columns[at], 'data-v': value ?? '' },
      html('b', {}, value !== null && WAITS.includes(data.columns[at]) ? waitOf(value, data) : shown(value)), html('span', {}, data.columns[at]))));
}

function showPictures() {
  const { pictures, span } = data.runs[state.run], mine = pictures[state.node];
  if (!mine) {
    const why = Object.keys(pictures).length ? 'No job can wait at this node, or none arrived.'
      : 'This report has no lines of jobs (--jobs, or jobs=True), so that there are no pictures of its waits.';
    by('pictures').replaceChildren(html('p', {}, why));
    return;
  }
  const figures = [mine.time ? overTime(mine.time, span, data) : html('p', {}, 'This node has no waits of its own.')];
  if (mine.number) figures.push(numberOverTime(mine.number, span, data));
  if (mine.waits && mine.waits.wait.length) figures.push(byWait(mine.waits, figureOf(state.run, state.node), data.within, data));
  by('pictures').replaceChildren(...figures);
}

// The stations over time, and the jobs one by one; a page has room for those of some runs.
const lacks = (found, what) => html('p', {}, !data.runs[state.run].has ? 'This report has no lines of jobs (--jobs, or jobs=True).'
  : found === false ? `This page has no room for the ${what} of this run: make a page of it alone.` : 'No job stays anywhere.');
let onStations = () => {}, onUnits = () => {};
function showStations() {
  const { line, span } = data.runs[state.run];
  by('stations').replaceChildren();
  by('stations-said').textContent = '';
  onStations = () => {};
  if (!line) return by('stations').append(lacks(line, 'stations'));
  const made = stripsOf(line, Number(span), data, name => figureOf(state.run, name)('util'), state.node, node => choose({ node }));
  by('stations').append(...made.rows);
  by('stations-said').textContent = made.text;
  onStations = made.onKey;
  markStation();
}
function markStation() {
  document.querySelectorAll('#stations .strip').forEach(it => it.classList.toggle('marked', it.dataset.strip === state.node));
}
function showUnits() {
  const { units, span, kinds } = data.runs[state.run];
  document.querySelector('[data-told=units]').textContent = '';
  by('units').replaceChildren();
  by('units-said').textContent = '';
  onUnits = () => {};
  if (!units) return by('units').append(lacks(units, 'jobs'));
  const windows = windowsOf(units), begin = windows[Math.min(state.window, windows.length - 1)], made = unitsOf(units, state.batch, begin, Number(span), data, kinds);
  by('units').append(...made.rows);
  by('units-said').textContent = made.text;
  onUnits = made.onKey;
  const option = (text, is) => html('option', is ? { selected: '' } : {}, text);
  by('window').replaceChildren(...windows.map((it, at) => option(timesTold(it, it + Number(units.width), Number(span), data), at === state.window)));
  by('batch').replaceChildren(...Array.from({ length: Math.max(1, made.batches) }, (_, at) => option(`${at * ROWS + 1} to ${(at + 1) * ROWS}`, at === state.batch)));
}
function beginUnits() {
  const { units } = data.runs[state.run];
  Object.assign(state, { window: units ? Math.max(0, windowsOf(units).indexOf(Number(units.chosen))) : 0, batch: 0 });
}

function showCompared() {
  const labels = data.runs.map(it => it.label), values = labels.map((_, run) => figureOf(run, state.node)(state.figure));
  const parts = data.runs.map(it => it.parts), says = `${state.figure} at ${state.node}, by run`;
  by('curve').replaceChildren(curveOf(parts, labels, values, state.run, says, run => choose({ run })));
  by('at').textContent = state.node;
  const table = by('compared'), names = ['run', `${state.figure} − first`, ...data.columns];
  const head = name => html('th', { scope: 'col', 'aria-sort': 'none' }, html('button', { type: 'button' }, name));
  table.tHead.replaceChildren(html('tr', {}, ...names.map(head)));
  table.tBodies[0].replaceChildren(...labels.map((label, run) => {
    const difference = values[run] === null || values[0] === null ? null : Math.round((values[run] - values[0]) * 1e4) / 1e4;
    const cells = [difference, ...valuesOf(run, state.node)].map(it => html('td', { 'data-v': it ?? '' }, shown(it)));
    const row = html('tr', { 'data-run': run, class: run === state.run ? 'marked' : '' }, html('th', { scope: 'row' }, label), ...cells);
    row.addEventListener('click', () => choose({ run }));
    return row;
  }));
}

function show() {
  by('facts').textContent = data.runs[state.run].facts;
  by('node').value = state.node;
  document.querySelectorAll('g.node, #nodes tr[data-node]').forEach(it => {
    const isChosen = it.dataset.node === state.node;
    it.classList.toggle('marked', isChosen);
    if (it.hasAttribute('aria-pressed')) it.setAttribute('aria-pressed', isChosen);
  });
  showCards();
  showPictures();
  if (by('stations')) markStation();
  if (by('compared')) showCompared();
}

// The table of nodes and the network were written for the first run; these write them for the selected one.
function refillTable() {
  document.querySelectorAll('#nodes tbody tr').forEach(row => {
    row.cells[1].textContent = data.runs[state.run].kinds[row.dataset.node] ?? '–';
    valuesOf(state.run, row.dataset.node).forEach((value, at) => {
      fill(row.cells[at + 2], { 'data-v': value ?? '' }, []).textContent = shown(value);
    });
  });
  // The rows keep their order, which isn't one of these figures.
  document.querySelectorAll('#nodes thead th').forEach(it => it.setAttribute('aria-sort', 'none'));
}
function refillBoxes() {
  const { nodes, asked, kinds } = data.runs[state.run];
  document.querySelectorAll('g.node').forEach(box => {
    const name = box.dataset.node, figure = figureOf(state.run, name), util = figure('util'), part = kind => box.querySelector(kind);
    box.classList.remove(...[0, 1, 2, 3, 4, 5].map(step => `load${step}`));
    box.classList.add(`load${stepOf(util)}`);
    fitted(part('.kind'), asked[name] ?? '–', 10.5);
    fitted(part('.figures'), nodes[name] ? figuresOf(kinds[name], figure) : '–', 11);
    const said = nodes[name] ? saidOf(name, kinds[name], figure) : `${name}, not in this run`;
    box.setAttribute('aria-label', said);
    part('title').textContent = said;
    if (part('.meter')) {
      part('.load').textContent = util === null ? '–' : `${Math.floor(100 * util + .5)} %`;
      part('.meter').setAttribute('width', (part('.rail').getAttribute('width') * Math.min(util ?? 0, 1)).toFixed(1));
    }
  });
}
function refillLines() {
  const { flows } = data.runs[state.run], most = Math.max(1, ...Object.values(flows));
  document.querySelectorAll('g.edge').forEach(line => {
    const count = flows[line.dataset.flow], text = count === undefined ? 'unknown' : shown(count), leave = line.querySelector('.leave');
    line.classList.toggle('none', count === 0);
    line.querySelector('path').setAttribute('stroke-width', (1 + 5 * (count || 0) / most).toFixed(1));
    line.querySelector('title').textContent = `output ${line.dataset.flow.split('.')[1]}: ${text} jobs`;
    if (leave) leave.textContent = `${text} leave`;
  });
}

function choose(change) {
  const isOther = change.run !== undefined && change.run !== state.run;
  Object.assign(state, change);
  if (isOther) {
    by('run').selectedIndex = state.run;
    refillTable();
    refillBoxes();
    refillLines();
    showRun();
  }
  show();
}
// What depends on the run only.
function showRun() {
  if (!by('stations')) return;
  beginUnits();
  showStations();
  showUnits();
}

// Clicks, keys and choices.
document.querySelectorAll('g.node').forEach(box => {
  const chosen = () => choose({ node: box.dataset.node });
  box.addEventListener('click', chosen);
  box.addEventListener('keydown', event => {
    if (event.key !== 'Enter' && event.key !== ' ') return;
    event.preventDefault();
    chosen();
  });
});
document.querySelectorAll('#nodes tbody tr').forEach(row => row.addEventListener('click', () => choose({ node: row.dataset.node })));
by('node').addEventListener('change', event => choose({ node: event.target.value }));
by('theme').addEventListener('change', event => { document.documentElement.dataset.theme = event.target.value; });
if (by('stations')) {
  by('stations').addEventListener('keydown', event => onStations(event));
  by('units').addEventListener('keydown', event => onUnits(event));
  by('window').addEventListener('change', event => { Object.assign(state, { window: event.target.selectedIndex, batch: 0 }); showUnits(); });
  by('batch').addEventListener('change', event => { state.batch = event.target.selectedIndex; showUnits(); });
}
if (by('run')) {
  by('run').addEventListener('change', event => choose({ run: event.target.selectedIndex }));
  by('figure').append(...data.columns.map(it => html('option', it === state.figure ? { selected: '' } : {}, it)));
  by('figure').addEventListener('change', event => choose({ figure: event.target.value }));
}
document.addEventListener('click', event => {
  const button = event.target.closest('thead button');
  if (!button) return;
  const cell = button.closest('th'), body = cell.closest('table').tBodies[0], at = cell.cellIndex, before = cell.getAttribute('aria-sort');
  // Figures sort in descending order first, names in ascending order.
  const isUp = before === 'none' ? at === 0 : before === 'descending';
  for (const it of cell.parentNode.cells) it.setAttribute('aria-sort', 'none');
  cell.setAttribute('aria-sort', isUp ? 'ascending' : 'descending');
  body.append(...sorted([...body.rows], row => row.cells[at].dataset.v ?? row.cells[at].textContent, isUp));
});
showRun();
show();
