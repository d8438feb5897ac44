// The page: the board, the claim, and the run of the program in the worker.
'use strict';

const $ = id => document.getElementById(id);
const textOf = id => $(id).textContent.trim();

// The tables by the side of the board, as masks, and how they are added up: plain, and transposed.
const TABLES = {
  2: { small: [14] },
  3: { small: [30, 480], large: [510] },
  4: { small: [62, 1984, 63488], large: [126, 8064, 57344] },
  5: { small: [198, 792, 1082400, 202752, 811008, 31457280], large: [230, 17176, 1149952, 929792, 31457280] },
};
const setsOf = masks => ['', 't'].map(mark => `set ${masks.map((_, number) => number + mark).join(' ')}\n`).join('');
const MOST_CLAIMS = 1000;

// ---- The board

const view = { numbers: [], ways: '', isLast: false, place: 0, tiles: [], timer: 0 };
const isShown = () => view.numbers.length > 0;

// Shows a board and ways of the blank, of which those count that stay on the board.
function show(numbers, ways, isLast) {
  pause();
  let legal = 0;
  while (legal < ways.length && boardAfter(numbers, ways.slice(0, legal + 1))) legal++;
  Object.assign(view, { numbers, ways: ways.slice(0, legal), isLast, place: 0, tiles: [] });
  const side = Math.sqrt(numbers.length);
  $('board').replaceChildren(...numbers.filter(number => number).map(number => {
    const tile = document.createElement('div');
    tile.className = 'tile';
    tile.textContent = number;
    tile.style.width = tile.style.height = `${100 / side - 1.4}%`;
    tile.style.fontSize = `${6 / side}rem`;
    return view.tiles[number] = tile;
  }));
  draw();
}

function draw() {
  const { numbers, ways, place, isLast } = view;
  const board = isShown() ? boardAfter(numbers, ways.slice(0, place)) : [], side = Math.sqrt(board.length);
  for (const [cell, number] of board.entries()) {
    if (!number) continue;
    view.tiles[number].style.left = `${cell % side * 100 / side + .7}%`;
    view.tiles[number].style.top = `${Math.floor(cell / side) * 100 / side + .7}%`;
    view.tiles[number].classList.toggle('home', homeOf(number, board.length, isLast) === cell);
  }
  const last = place ? `, blank ${LETTERS[ways[place - 1]]}` : '', after = ways ? ` after move ${place} of ${ways.length}` : '';
  $('place').textContent = ways ? `${place} of ${ways.length}${last}` : '';
  $('board').setAttribute('aria-label', isShown() ? `Board${after}: ${rowsOf(board).join('; ')}` : 'No board');
  $('slider').max = ways.length;
  $('slider').value = place;
  $('back').disabled = place === 0;
  $('on').disabled = place === ways.length;
  $('play').disabled = $('slider').disabled = !ways;
}

function rowsOf(board) {
  const side = Math.sqrt(board.length);
  return board.filter((_, cell) => cell % side === 0).map((_, row) => board.slice(row * side, row * side + side).join(' '));
}

function pause() {
  clearInterval(view.timer);
  view.timer = 0;
  $('play').textContent = 'Play';
}

function goTo(place) {
  pause();
  view.place = Math.max(0, Math.min(view.ways.length, place));
  draw();
}

function play() {
  if (view.timer) return pause();
  if (view.place === view.ways.length) view.place = 0;
  $('play').textContent = 'Pause';
  view.timer = setInterval(() => {
    if (view.place < view.ways.length) view.place++;
    if (view.place === view.ways.length) pause();
    draw();
  }, 220);
  draw();
}

// ---- The claim

let claims = [];

// Reads the text, shows its first board, and says what was made of it. An answer to another text goes.
function read() {
  claims = readClaims($('claim').value, { home: $('home').value, ways: $('ways').value });
  const [first] = claims;
  show(first.side ? first.numbers : [], first.ways ?? '', first.isLast);
  const turned = claims.filter(claim => claim.side && !claim.isAsTyped).length;
  $('told').textContent = claims.length === 1 ? tellClaim(first)
    : `${claims.length} claims${turned ? `, of which ${turned} are turned or written anew for the program` : ''}.`;
  showAnswer('None yet.', '', '');
}

// ---- The run

const run = { isOn: false, isProving: false, lines: [], errors: [], stage: '' };
// The worker; the module that it starts; whether it has; and what it is to do then. A browser may be unable to start it.
const program = { worker: null, module: null, isReady: false, waits: null, isRefused: false };

async function startWorker() {
  Object.assign(program, { isReady: false, waits: null });
  const script = new Blob([textOf('worker')], { type: 'text/javascript' });
  const worker = program.worker = new Worker(URL.createObjectURL(script));
  worker.onmessage = ({ data }) => { if (worker === program.worker) hear(data); };
  if (self.DecompressionStream) program.module ??= await unpack();
  program.isRefused = !program.module || !self.WebAssembly?.validate(program.module);
  if (!program.isRefused) return worker.postMessage({ module: program.module });
  end('This browser can’t run the program', 'It needs WebAssembly with a 64-bit memory, which Chromium, Chrome and Edge '
    + 'have from version 133 on, and Firefox from 134.', 'open');
}

// Has the worker do this, once it can.
function send(task) {
  if (program.isReady) program.worker.postMessage(task);
  else program.waits = task;
}

async function unpack() {
  const packed = Uint8Array.from(atob(textOf('module').replace(/\s/g, '')), letter => letter.charCodeAt(0));
  return new Response(new Blob([packed]).stream().pipeThrough(new DecompressionStream('gzip'))).arrayBuffer();
}

// Hands the claims to the program; or, for `replay`, what is to be replayed. What is no board is replayed too, since the program
// then says what is wrong with it.
function begin(isReplay) {
  if (run.isOn || program.isRefused) return;
  read();
  const [first] = claims, side = claims.find(claim => claim.side)?.side, tables = TABLES[side];
  if (claims.length > MOST_CLAIMS)
    return end('Too many claims', `The page takes ${MOST_CLAIMS} at a time, and the program itself more.`, 'open');
  const replays = isReplay || !side || claims.length === 1 && !first.isRead;
  Object.assign(run, { isOn: true, isProving: false, lines: [], errors: [], stage: 'Replaying' });
  document.body.dataset.state = 'running';
  showAnswer('Working ..', '', '');
  $('bar').removeAttribute('value');
  if (replays) return send({ replay: first.line });
  const masks = tables[$('tables').value] ?? tables.small;
  send({ side, masks, sets: setsOf(masks), claims: claims.map(claim => claim.line + '\n').join('') });
}

// Shows an answer with no lines yet. While a run is on, the claim stays as it is.
function showAnswer(heading, sentence, kind) {
  $('answer').textContent = heading;
  $('answer').className = kind;
  $('meaning').textContent = sentence;
  $('stage').textContent = '';
  $('line').hidden = $('answers').hidden = $('more').hidden = true;
  $('answers').replaceChildren();
  setHands();
}

function setHands() {
  $('prove').disabled = run.isOn || program.isRefused;
  $('replay').disabled = $('prove').disabled || claims.length > 1 || !claims[0].hasMoves;
  $('stop').disabled = $('bar').hidden = !run.isOn;
  $('claim').readOnly = $('pick').disabled = $('home').disabled = $('ways').disabled = $('tables').disabled = run.isOn;
}

// Takes what the worker tells.
function hear(message) {
  if (message.ready) {
    program.isReady = true;
    if (program.waits) program.worker.postMessage(program.waits);
  }
  if (message.broken) return end('The program could not go on', `${message.broken}. Nothing is said of the claim.`, 'open', true);
  if (message.making !== undefined) {
    Object.assign(run, { stage: `Table ${message.making + 1} of ${message.count} is made and checked`, lines: [], errors: [] });
    $('bar').value = message.making / message.count;
    $('stage').textContent = run.stage;
  }
  if (message.proving) {
    Object.assign(run, { isProving: true, stage: 'Searching', lines: [], errors: [] });
    $('bar').removeAttribute('value');
    $('stage').textContent = run.stage;
  }
  if (message.stream === 1) takeLines(message.lines);
  if (message.stream === 2) takeErrors(message.lines);
  if (message.status !== undefined) finish(message);
}

// Those of the lines that answer a claim, whose board they name.
const answersIn = lines => lines.filter(line => / of [0-9]/.test(line));

function takeLines(lines) {
  const before = answersIn(run.lines).length;
  run.lines.push(...lines);
  if (!run.isProving || claims.length === 1) return;
  answersIn(run.lines).slice(before).forEach((line, place) => listAnswer(line, claims[before + place]));
  $('bar').value = answersIn(run.lines).length / claims.length;
}

// How far the run is, or why it ended without a yes.
function takeErrors(lines) {
  for (const line of lines) {
    run.errors.push(line);
    const told = line.replace(/^pdb_cli: (claim \d+, |table_\w+(, \d+ of \d+)?: )?/, '');
    if (!isProgress(line)) continue;
    $('stage').textContent = `${run.stage}: ${told.replace(/\d{5,}/g, number => Number(number).toLocaleString('en'))}`;
  }
}

const isProgress = line => / percent of | boards, \d+ a second$/.test(line);

// The run has ended with a status.
function finish({ status, memory }) {
  const answers = answersIn(run.lines);
  $('lines').textContent = run.lines.join('\n');
  $('more').hidden = run.lines.length < 2;
  $('stage').textContent = `Status ${status}, ${Math.round(memory / 1e6)} MB of memory`;
  if (claims.length > 1 && answers.length === claims.length) return endMany(answers);
  const line = run.lines.at(-1) ?? '', meaning = meaningOf(line), error = run.errors.at(-1) ?? '';
  const why = status === 0 || !error || isProgress(error) ? '' : `${error.replace(/^pdb_cli: (standard input: )?/, 'It says: ')}.`;
  end(meaning.heading, [meaning.sentence, why, showMoves(meaning, claims[0])].filter(part => part).join(' '), meaning.kind);
  $('line').textContent = line;
  $('line').hidden = !line;
}

function endMany(answers) {
  const kinds = answers.map(line => meaningOf(line).kind);
  const count = kind => kinds.filter(other => other === kind).length;
  const kind = count('yes') === kinds.length ? 'yes' : count('no') ? 'no' : 'open';
  end(`${count('yes')} of ${kinds.length} hold`,
    `${count('no')} are refused, and ${count('open')} stay open. Each answer shows its board.`, kind);
}

// Shows the moves that a line has on the claim's own board, and gives them in its letters, where it has other ones.
function showMoves(meaning, claim) {
  if (meaning.moves === null || !claim.side) return '';
  const ways = claim.isLast ? turnWays(meaning.moves) : meaning.moves;
  show(claim.numbers, ways, claim.isLast);
  return claim.isLast || claim.areTiles ? `On your board, in your letters: ${claim.areTiles ? turnWays(ways) : ways}.` : '';
}

// Adds the answer to one of several claims to the list.
function listAnswer(line, claim) {
  const meaning = meaningOf(line), item = document.createElement('li'), button = document.createElement('button');
  button.className = meaning.kind;
  button.textContent = meaning.heading;
  button.onclick = () => {
    show(claim.numbers, claim.ways, claim.isLast);
    $('meaning').textContent = [meaning.sentence, showMoves(meaning, claim)].join(' ');
    $('line').textContent = line;
    $('line').hidden = false;
  };
  item.append(button);
  $('answers').append(item);
  $('answers').hidden = false;
}

function end(heading, sentence, kind, isBroken) {
  run.isOn = false;
  $('answer').textContent = heading;
  $('answer').className = kind;
  $('meaning').textContent = sentence;
  setHands();
  document.body.dataset.state = 'ended';
  if (isBroken) restart();
}

function restart() {
  program.worker.terminate();
  startWorker();
}

function stop() {
  if (!run.isOn) return;
  restart();
  end('Stopped', 'Nothing is said of the claim.', 'open');
  $('stage').textContent = '';
}

// ---- What to pick, and links

const EXAMPLES = [
  ['A board of the 8-puzzle: what is a shortest solution?', '0 3 2\n4 1 8\n7 6 5'],
  ['A false claim', '3 1 2\n0 4 5\n6 7 8\n; DUU'],
  ['A bound', '0 3 2\n4 1 8\n7 6 5\n: 20'],
  ['The blank last, and arrows', '1 2 3\n4 _ 6\n7 5 8\n; ↓ →'],
  ['An easy board of the 15-puzzle', '1 5 2 3\n4 9 0 7\n8 10 6 11\n12 13 14 15'],
  ['A board of the 24-puzzle', '1 6 2 3 4\n5 7 12 9 13\n10 16 11 8 14\n15 17 18 23 19\n20 21 0 22 24'],
];

function fillPick() {
  const korf = textOf('korf').split('\n');
  const picks = [...EXAMPLES, ['Korf’s hundred boards at once', korf.join('\n')], ...korf.map((line, number) => {
    const [board, moves] = line.split(';').map(part => part.trim());
    return [`Korf’s board ${number + 1}: ${moves.length} moves`, `${rowsOf(board.split(' ')).join('\n')}\n; ${moves}`];
  })];
  $('pick').replaceChildren(new Option('Pick one', ''), ...picks.map(([name, text]) => new Option(name, text)));
}

function writeLink() {
  const parts = { claim: $('claim').value.trim() };
  for (const id of ['home', 'ways']) if ($(id).value) parts[id] = $(id).value;
  if ($('tables').value === 'large') parts.tables = 'large';
  history.replaceState(null, '', `#${new URLSearchParams(parts)}`);
  $('stage').textContent = 'The link is in the address bar.';
}

// Takes the claim that the link has behind `#`, if it has one, and has it proved.
function takeLink() {
  const parts = new URLSearchParams(location.hash.slice(1));
  if (!parts.get('claim')) return;
  stop();
  $('claim').value = parts.get('claim');
  for (const id of ['home', 'ways', 'tables'])
    if ([...$(id).options].some(option => option.value === parts.get(id))) $(id).value = parts.get(id);
  begin(false);
}

// ---- Hands

$('back').onclick = () => goTo(view.place - 1);
$('on').onclick = () => goTo(view.place + 1);
$('play').onclick = play;
$('slider').oninput = () => goTo(Number($('slider').value));
$('home').onchange = $('ways').onchange = read;
$('claim').oninput = () => {
  $('pick').value = '';
  read();
};
$('pick').onchange = () => {
  $('claim').value = $('pick').value;
  read();
};
$('prove').onclick = () => begin(false);
$('replay').onclick = () => begin(true);
$('stop').onclick = stop;
$('link').onclick = writeLink;
onhashchange = takeLink;
onkeydown = event => {
  const writes = event.target.matches('textarea, select, input'), presses = event.target.matches('button, summary');
  const places = { ArrowLeft: view.place - 1, ArrowRight: view.place + 1, Home: 0, End: view.ways.length };
  if (event.key === 'Enter' && event.ctrlKey && !run.isOn) begin(false);
  else if (event.key === 'Escape') stop();
  else if (writes || event.ctrlKey || event.altKey || event.metaKey) return;
  else if (event.key === ' ' && !presses && view.ways) play();
  else if (event.key in places) goTo(places[event.key]);
  else return;
  event.preventDefault();
};

fillPick();
$('pick').selectedIndex = 1;
$('claim').value = $('pick').value;
read();
startWorker().catch(error => end('The program could not be started', String(error), 'open'));
takeLink();
