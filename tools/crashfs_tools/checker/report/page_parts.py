"""The style and the script of the page."""

STYLE = """
body { font: 15px/1.4 sans-serif; margin: 2em auto; max-width: 70em; padding: 0 1em;
  color: #222; background: #fff }
h1 { font-size: 1.5em } h2 { font-size: 1.15em; margin: 1.2em 0 .3em }
.about { color: #666; font-size: .9em; overflow-wrap: anywhere }
.summary { font-family: monospace; font-size: 1.05em }
section { border: 1px solid #ccc; border-left: 6px solid #c33; padding: 0 1em .8em; margin: 1em 0 }
section.accepted { border-left-color: #aaa; color: #666 }
section h2 { margin-top: .5em; font-family: monospace }
pre { background: #f4f4f4; padding: .6em; overflow-x: auto; white-space: pre-wrap }
table { border-collapse: collapse; font-family: monospace; font-size: .92em }
td { padding: .1em .8em .1em 0; vertical-align: top; overflow-wrap: anywhere }
td:first-child { text-align: right; color: #777; white-space: nowrap; overflow-wrap: normal }
td:last-child { color: #666 }
tr.sync td:nth-child(2) { color: #06a; font-weight: bold }
tr.say td:nth-child(2) { color: #170; font-weight: bold }
tr.pair { background: #fde8e4 }
canvas { display: block; cursor: crosshair; image-rendering: pixelated; margin: .5em 0 }
#states { overflow-x: auto }
.key { white-space: nowrap; border-left: .8em solid; margin-right: 1em; padding-left: .3em }
.differences { font-family: monospace; font-size: .92em }
#shown { font-family: monospace; min-height: 1.4em; white-space: pre-wrap; margin: 0;
  padding: .4em 0; position: sticky; bottom: 0; background: #fff; border-top: 1px solid #ccc }
"""

# Draws a cell for each state of each window: a column for each number of micro-operations that were
# begun. The top row is the prefixes, and below it the row k has the states that lack the
# micro-operation k.
SCRIPT = """
const colours = {g: '#8c8', b: '#d33', n: '#e90', '-': '#bbb'};
const words = {g: 'good', b: 'fails', n: 'no answer', '-': 'not tried'};
const place = document.getElementById('states'), shown = document.getElementById('shown');
place.append('Columns: how much of the session had begun. Top row: nothing of that is lost. '
  + 'Row k: micro-operation k is lost.', document.createElement('br'));
for (const sign in words) {
  const key = document.createElement('span');
  key.className = 'key';
  key.style.borderLeftColor = colours[sign];
  key.textContent = words[sign];
  place.append(' ', key);
}
shown.textContent = 'Point at a state.';
function show(data) {
  const count = data.operations.length;
  const cell = Math.max(2, Math.min(12, Math.floor(960 / (count + 1))));
  const canvas = document.createElement('canvas');
  canvas.width = (count + 1) * cell;
  canvas.height = (count + 1) * cell;
  const pen = canvas.getContext('2d');
  function draw(column, row, sign) {
    if (!(sign in colours)) return;
    pen.fillStyle = colours[sign];
    pen.fillRect(column * cell, row * cell, cell - (cell > 3), cell - (cell > 3));
  }
  [...data.prefixes].forEach((sign, end) => draw(end, 0, sign));
  data.holes.forEach((row, end) => [...row].forEach((sign, lost) => draw(end, lost + 1, sign)));
  if (windows.length > 1) place.append(titled('States from ' + data.first + ' on'));
  place.append(canvas);
  function number(end, row) {
    if (row === 0) return data.first + end;
    const before = [...data.holes[end].slice(0, row - 1)].filter(sign => sign !== ' ').length;
    return data.numbers[end][before];
  }
  canvas.onmousemove = event => {
    const end = Math.floor(event.offsetX / cell), row = Math.floor(event.offsetY / cell);
    const sign = row === 0 ? data.prefixes[end] : (data.holes[end] || '')[row - 1];
    if (!(sign in words)) return;
    const last = end ? 'after op ' + data.operations[end - 1].slice(3) : 'at the beginning';
    const lost = row ? ', without ' + data.operations[row - 1] : '';
    shown.textContent = 'state ' + number(end, row) + ' ' + words[sign] + ': ' + last + lost;
  };
  if (data.picks.length) place.append(picked(data.picks));
}
function titled(text) {
  const title = document.createElement('h3');
  title.textContent = text;
  return title;
}
// States with other losses: a row for each number of micro-operations that they lack.
function picked(picks) {
  const part = document.createElement('div'), canvas = document.createElement('canvas');
  const cell = picks.length > 4000 ? 3 : 6, wide = Math.floor(900 / cell), rows = [];
  picks.forEach(pick => {
    const row = rows[rows.length - 1];
    if (row && row[0][2] === pick[2] && row.length < wide) row.push(pick);
    else rows.push([pick]);
  });
  canvas.width = 900;
  canvas.height = rows.length * cell;
  const pen = canvas.getContext('2d');
  rows.forEach((row, y) => row.forEach(([, sign], x) => {
    pen.fillStyle = colours[sign];
    pen.fillRect(x * cell, y * cell, cell - 1, cell - 1);
  }));
  canvas.onmousemove = event => {
    const row = rows[Math.floor(event.offsetY / cell)] || [];
    const pick = row[Math.floor(event.offsetX / cell)];
    if (!pick) return;
    shown.textContent = 'state ' + pick[0] + ' ' + words[pick[1]] + ': it lacks '
      + pick[2] + ' micro-operations';
  };
  part.append(picks.length + ' states with other losses. Each row: those that lack equally many '
    + 'micro-operations.', canvas);
  return part;
}
windows.forEach(show);
"""
