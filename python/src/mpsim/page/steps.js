// Arrow keys and clicks step through the intervals of a chart; a line of its section says the title of each.
document.querySelectorAll('svg[data-steps]').forEach(chart => {
  const steps = chart.querySelectorAll('.step'), told = chart.closest('section').querySelector('output');
  let at = -1;
  const go = to => {
    document.querySelectorAll('.step').forEach(it => it.classList.remove('marked'));
    at = Math.max(0, Math.min(steps.length - 1, to));
    steps[at].classList.add('marked');
    told.textContent = steps[at].querySelector('title').textContent;
  };
  chart.addEventListener('keydown', event => {
    const to = { ArrowLeft: at - 1, ArrowRight: at + 1, Home: 0, End: steps.length - 1 }[event.key];
    if (to === undefined) return;
    event.preventDefault();
    go(to);
  });
  steps.forEach((it, index) => it.addEventListener('click', () => go(index)));
});
