// The heat map of a grid: another figure fills the cells again; arrow keys and clicks choose a cell, whose figures a line says.
const data = JSON.parse(document.getElementById('data').textContent);
const by = id => document.getElementById(id);
const cells = document.querySelectorAll('#grid td'), wide = data.wide;
let chosen = 0;

function fill() {
  const { texts, steps } = data.figures[by('figure').selectedIndex];
  cells.forEach((cell, at) => {
    cell.textContent = texts[at] + (data.reached[at] ? ' ✓' : '');
    cell.setAttribute('class', `load${steps[at]}${data.reached[at] ? ' reached' : ''}${at === chosen ? ' marked' : ''}`);
  });
}
function choose(at) {
  chosen = at;
  fill();
  by('told').textContent = data.says[at];
}

by('figure').addEventListener('change', fill);
cells.forEach((cell, at) => cell.addEventListener('click', () => choose(at)));
by('grid').addEventListener('keydown', event => {
  const column = chosen % wide, last = cells.length - 1;
  const to = { ArrowLeft: column ? chosen - 1 : chosen, ArrowRight: column < wide - 1 ? chosen + 1 : chosen,
    ArrowUp: chosen >= wide ? chosen - wide : chosen, ArrowDown: chosen + wide <= last ? chosen + wide : chosen,
    Home: chosen - column, End: chosen - column + wide - 1 }[event.key];
  if (to === undefined) return;
  event.preventDefault();
  choose(to);
});
