// Claims as people write them and as the program takes them, and its lines. The program takes a board, row by row, with 0 for the
// blank, whose home is the upper left corner; and the ways of the blank, as U, D, L and R.
'use strict';

const STEPS = { U: [-1, 0], D: [1, 0], L: [0, -1], R: [0, 1] };
const OPPOSITE = { U: 'D', D: 'U', L: 'R', R: 'L' };
const ARROWS = { '↑': 'U', '↓': 'D', '←': 'L', '→': 'R' };
const LETTERS = { U: 'up', D: 'down', L: 'left', R: 'right' };
const MOST_MOVES = 1000;

// ---- Boards

// The side of a board that these numbers are, or 0.
function sideOf(numbers) {
  const side = Math.sqrt(numbers.length);
  const areOnce = numbers.slice().sort((a, b) => a - b).every((number, place) => number === place);
  return [2, 3, 4, 5].includes(side) && areOnce ? side : 0;
}

// The cell that the blank goes to, or -1 where that is off the board.
function cellBeside(side, cell, way) {
  const [down, right] = STEPS[way];
  const row = Math.floor(cell / side) + down, column = cell % side + right;
  return row >= 0 && row < side && column >= 0 && column < side ? row * side + column : -1;
}

// The board behind these ways of the blank, or null where one leads off the board.
function boardAfter(numbers, ways) {
  const board = numbers.slice(), side = Math.sqrt(numbers.length);
  let blank = board.indexOf(0);
  for (const way of ways) {
    const cell = cellBeside(side, blank, way);
    if (cell < 0) return null;
    board[blank] = board[cell];
    board[cell] = 0;
    blank = cell;
  }
  return board;
}

// The cell in which a number is at home, by whether the blank's home is the last cell or the first.
const homeOf = (number, count, isLast) => isLast ? (number + count - 1) % count : number;

const isHome = (numbers, isLast) => numbers.every((number, cell) => homeOf(number, numbers.length, isLast) === cell);

// The board turned by half a turn, with the tiles numbered from the other end, and the ways turned with it.
const turnBoard = numbers => numbers.map((_, cell) => numbers[numbers.length - 1 - cell]).map(number => number && numbers.length - number);
const turnWays = ways => ways.replace(/./g, way => OPPOSITE[way]);

// Whether moves lead to the home that has the blank in the first cell: the parity of the numbers is that of the blank's distance.
function canBeSolved(numbers) {
  const side = Math.sqrt(numbers.length), blank = numbers.indexOf(0);
  let odd = Math.floor(blank / side) + blank % side;
  numbers.forEach((number, cell) => { odd += numbers.slice(cell + 1).filter(later => later < number).length; });
  return odd % 2 === 0;
}

// ---- Reading

// The numbers of a board as other tools write them too, with commas, bars, brackets or a sign for the blank; or null.
function readNumbers(text) {
  const signs = text.replace(/[\s,|[\](){}]+/g, ' ').trim();
  if (!/^([0-9]{1,2}|[_.xX*-])( ([0-9]{1,2}|[_.xX*-]))*$/.test(signs)) return null;
  return signs.split(' ').map(sign => /[0-9]/.test(sign) ? Number(sign) : 0);
}

// Ways from letters of either case, arrows or words, with counts behind them; or null. They are the blank's or the tiles'.
function readWays(text) {
  const short = text.replace(/[↑↓←→]/g, arrow => ARROWS[arrow]).replace(/\b(up|down|left|right)\b/gi, word => word[0]);
  const letters = short.replace(/[\s,.'"()[\]-]+/g, '').toUpperCase();
  if (!/^([UDLR][0-9]{0,3})*$/.test(letters)) return null;
  const ways = letters.replace(/([UDLR])([0-9]+)/g, (_, way, count) => way.repeat(Number(count)));
  return ways.length <= MOST_MOVES ? ways : null;
}

// The blank's ways from the numbers of the tiles that move in turn; or null.
function readTiles(text, numbers) {
  if (!/[0-9]/.test(text) || !/^[\s,0-9.[\]()-]*$/.test(text)) return null;
  const side = Math.sqrt(numbers.length);
  let board = numbers, ways = '';
  for (const tile of text.match(/[0-9]+/g).map(Number)) {
    const way = Object.keys(STEPS).find(way => board[cellBeside(side, board.indexOf(0), way)] === tile);
    if (!way || ways.length === MOST_MOVES) return null;
    board = boardAfter(board, way);
    ways += way;
  }
  return ways;
}

// Whether the blank's home is the last cell, whether the ways are the tiles', and why. The reader may have chosen either. Otherwise
// it is as the ways solve the board; and where none do, the home is the one that the board can be brought to, or the first cell.
function settle(numbers, ways, areBlanks, choice) {
  const homes = choice.home === 'last' ? [true] : choice.home === 'first' ? [false] : [false, true];
  const kinds = areBlanks || choice.ways === 'blank' ? [false] : choice.ways === 'tiles' ? [true] : [false, true];
  for (const areTiles of ways === null ? [] : kinds)
    for (const isLast of homes) {
      const end = boardAfter(numbers, areTiles ? turnWays(ways) : ways);
      if (end && isHome(end, isLast)) return { isLast, areTiles, why: 'The moves end there' };
    }
  if (homes.length === 1) return { isLast: homes[0], areTiles: kinds[0], why: 'As you chose' };
  const isLast = !canBeSolved(numbers) && canBeSolved(turnBoard(numbers));
  return { isLast, areTiles: kinds[0], why: 'No moves lead to the upper left one' };
}

// A claim as one line: what it says, and `line`, as the program takes it. Of what is no board, that is the text itself.
function readClaim(text, choice) {
  const cut = text.search(/[;:]/);
  const head = cut < 0 ? text : text.slice(0, cut), rest = cut < 0 ? '' : text.slice(cut + 1);
  const numbers = readNumbers(head), side = numbers ? sideOf(numbers) : 0;
  const plain = text.trim().replace(/\s+/g, ' ');
  if (!side) return { side: 0, line: plain };
  const hasMoves = text[cut] === ';';
  const letters = hasMoves ? readWays(rest) : null;
  const tiles = hasMoves && letters === null ? readTiles(rest, numbers) : null;
  const { isLast, areTiles, why } = settle(numbers, letters ?? tiles, letters === null, choice);
  const ways = letters === null ? tiles : areTiles ? turnWays(letters) : letters;
  const board = isLast ? turnBoard(numbers) : numbers;
  const moves = ways === null ? rest.trim() : isLast ? turnWays(ways) : ways;
  const asks = hasMoves ? `; ${moves}` : plain.slice(plain.search(/:|$/));
  const line = (board.join(' ') + ' ' + asks).trim();
  const isAsTyped = line.replace(/ /g, '') === plain.replace(/ /g, ''), isRead = !hasMoves || ways !== null;
  return { side, numbers, isLast, areTiles, why, areNumbers: tiles !== null, ways: ways ?? '', hasMoves, isRead, line, isAsTyped };
}

// The claims of a text: one, over one line or several, or one a line where two lines or more have a board each.
function readClaims(text, choice) {
  const lines = text.split('\n').map(line => line.trim()).filter(line => line);
  const boards = lines.filter(line => sideOf(readNumbers(line.split(/[;:]/)[0]) ?? []));
  return (boards.length > 1 ? lines : [lines.join(' ')]).map(line => readClaim(line, choice));
}

const countOf = count => `${count} move${Number(count) === 1 ? '' : 's'}`;

// What the page made of a claim, in words.
function tellClaim(claim) {
  if (!claim.side) return 'This is no board of 4, 9, 16 or 25 numbers, each from 0 up once.';
  const moves = claim.isRead ? countOf(claim.ways.length) : 'no moves that can be read';
  const told = [`A board of the ${claim.numbers.length - 1}-puzzle${claim.hasMoves ? `, and ${moves}` : ''}.`];
  if (!claim.isLast) told.push('The blank’s home is the upper left corner.');
  else told.push(`The blank’s home is the lower right corner. (${claim.why}.) So the board is turned by half a turn for the program.`);
  if (claim.areTiles) told.push('The letters are the ways of the tiles, so they are turned into those of the blank.');
  if (claim.areNumbers) told.push('The moves are the tiles that move, and are turned into the ways of the blank.');
  if (!claim.isAsTyped) told.push(`The program gets: ${claim.line}`);
  return told.join(' ');
}

// ---- The program's lines

// What a line that answers a claim means: whether it is a yes, a no, or leaves the claim open; a heading; a sentence; and the moves
// that it has.
const MEANINGS = [
  [/^solution (\d+)$/, 'yes', n => `${countOf(n)}: they solve the board`, 'Whether fewer would do, “Prove it” asks.'],
  [/^optimal (\d+) of [ \d]+ ;(?: ([UDLR]+))?$/, 'yes', n => `${countOf(n)}, and none shorter`,
    'The moves solve the board, and no solution has fewer.'],
  [/^bound (\d+) of [ \d]+$/, 'yes', n => `At least ${countOf(n)}`, 'No solution of this board has fewer.'],
  [/^part (\d+\/\d+) of bound (\d+) of [ \d]+$/, 'yes', (part, n) => `Part ${part} of the bound ${n} holds`,
    'The bound is proved where all of its parts are.'],
  [/^refused O2 by ?([UDLR]*) of /, 'no', () => 'No: there is a shorter solution',
    'The moves of the line solve the board: play them.'],
  [/^refused K1/, 'open', () => 'Open: the budget is spent', 'Nothing is said of the claim.'],
  [/^refused K2/, 'no', () => 'No moves lead home',
    'The order of the numbers has another parity than the blank’s place; or no solution has fewer than 254 moves.'],
  [/^refused M2/, 'no', () => 'No: a move leaves the board', 'The line says at which step, counted from 0.'],
  [/^refused M4/, 'no', () => 'No: the moves don’t end at home', 'Each number must end in its own cell.'],
  [/^refused Q1/, 'no', () => 'This is no claim', 'A claim is a board, alone or with “; MOVES” or “: N” behind it.'],
  [/^refused Q2/, 'no', () => 'The boards are of different sides', 'The claims of a text must all be of one puzzle.'],
  [/^refused /, 'no', () => 'Refused', 'The program says why.'],
  [/^no memory$/, 'open', () => 'There is not enough memory', 'Nothing is said of the claim.'],
];

function meaningOf(line) {
  for (const [form, kind, heading, sentence] of MEANINGS) {
    const found = form.exec(line);
    if (!found) continue;
    const moves = /^(optimal|refused O2)/.test(line) ? found[found.length - 1] ?? '' : null;
    return { kind, heading: heading(...found.slice(1)), sentence, moves };
  }
  return { kind: 'open', heading: 'No answer', sentence: 'The program wrote no line that answers the claim.', moves: null };
}
