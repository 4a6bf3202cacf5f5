// Says in words what the program answers by a status and a line (FORMATS, "Statuses", "Refusals of a table",
// "Findings").

import { decoded } from './bytes.js';
import { Lines } from './lines.js';
import { savedAs } from './files.js';
import { jsonPlace, settingsWords } from './settings.js';
import { catalogueIn, recordAt, rollIn } from './tables.js';
import { linesOf, turnCount } from './texts.js';
import { brief, grouped, plural, quoted, shortList, visible } from './wording.js';
import { WISH_LINE, orderOf, sessionsWords, silentAmong } from './wishes.js';

/**
 * Of each table the columns, with what is expected there.
 * @type {Record<string, [string, string][]>}
 */
const COLUMNS = {
  catalogue: [
    ['section', 'a name'], ['course', 'a name'], ['seats', 'a whole number from 0 to 9999'],
    ['credits', 'a whole number from 0 to 100'], ['meetings', 'meetings as M0900-1020;W0900-1020, or nothing'],
    ['parts', '1 for the first half of the term, 2 for the second, 12 for both'],
  ],
  roll: [
    ['student', 'a name'], ['budget', 'a whole number from 0 to 900000'], ['credits', 'a whole number from 0 to 800'],
    ['courses', 'a whole number from 0 to 8'], ['carry', 'a whole number, at most 900000 less the budget'],
  ],
};
/** @type {Record<string, string>} */
const HEADERS = {
  catalogue: 'section,course,seats,credits,meetings or section,course,seats,credits,meetings,parts',
  roll: 'student,budget,credits,courses or student,budget,credits,courses,carry',
};
const NAME = 'A name is 1 to 32 letters (A to Z, a to z), digits, dashes, underscores and dots.';

/**
 * The cause of a refused record of a table, with what stands there and what is expected.
 * @param {string} kind @param {number} row from 1, the header's @param {string} cause the program's words
 * @param {string} text
 */
function recordWords(kind, row, cause, text) {
  const record = recordAt(text, row), columns = COLUMNS[kind];
  const at = (/** @type {number} */ column) => {
    const [name, expected] = columns[column - 1];
    return `column ${column} (${name}): ${quoted(record[column - 1] ?? '')} stands there. Expected: ${expected}`;
  };
  const number = Number(/column (\d+)$/.exec(cause)?.[1]);
  if (cause === 'header') return headerWords(kind, record);
  if (cause === 'fields') {
    return `The record has ${plural(record.length, 'field')}, and the header ${recordAt(text, 1).length}: `
      + 'a comma too many or too few, or a quote that is not closed.';
  }
  if (cause === 'too many rows') {
    return kind === 'roll' ? 'A roll has at most 2,000 students.' : 'A catalogue has at most 400 sections.';
  }
  if (cause.startsWith('name')) return `${at(number)}. ${NAME}`;
  if (cause.startsWith('number')) return `${at(number)}, without sign, point or leading zeros.`;
  if (cause.startsWith('repeats')) {
    return `${at(1)} that no earlier row has, and row ${/\d+/.exec(cause)[0]} has it already. `
      + 'Rename one of the two, or remove it.';
  }
  return at(cause === 'meetings' ? 5 : 6) + '.';
}

/** @param {string} kind @param {string[]} record */
function headerWords(kind, record) {
  const semicolons = record.join().includes(';')
    ? ' The file has semicolons in place of commas: save it with commas.' : '';
  return `The header is ${quoted(record.join(','))}. Expected: ${HEADERS[kind]}, letter by letter.${semicolons}`;
}

/**
 * The words of a refused input.
 * @param {string} line @param {Call} call
 */
function refusalWords(line, call) {
  const [, number, row, cause] = /^input (\d+) row (\d+): (.*)$/.exec(line), file = call.inputs[Number(number) - 1];
  const text = decoded(file.bytes), as = file.bytes.length ? savedAs(file.bytes) : 'empty';
  if (as) return `${file.name} is ${as}.`;
  if (row === '0') return `${file.name}${jsonPlace(text)}: ${settingsWords(cause, text)}`;
  return `${file.name}, row ${row} (the header is row 1): ${recordWords(file.kind, Number(row), cause, text)}`;
}

/** @type {Record<string, string>} */
const DEFECTS = {
  syntax: 'stands no sign of a tree', open: 'it stops where it has to go on, or a better bundle was found',
  redundant: 'it goes on where it has to stop', leaf: 'another bound is due',
  branch: 'another of the signs * + - is due', rest: 'it is at its end, and more follows',
};

/** @param {string} whose @param {string} defect @param {string} at */
const treeWords = (whose, defect, at) =>
  `The tree of ${whose}, the signs behind its bundle, does not prove that the bundle is the best one: behind its first `
  + `${at} characters ${DEFECTS[defect]}.`;

const INFEASIBLE = 'cannot have this bundle: two sections clash, a cap is passed, or a section is not rated.';

/** @type {[RegExp, string | ((...found: string[]) => string)][]} */
const FINDINGS = [
  [/^line (\d+) missing$/, 'Here a whole line is due, with the line feed that ends it, and the text ends before that: '
    + 'it was cut, or an editor saved it anew. Take the file as it was published.'],
  [/^line (\d+) form$/, 'The line does not have the form that is due there.'],
  [/^line (\d+) rest$/, 'There is more behind the end.'],
  [/^journal at (\d+)$/, it => 'The order line has to take all commands of each session, in their order: '
    + `at its entry ${it} it does not, or it is at its end and commands are left.`],
  [/^budget (\S+)$/, it => `The budget of ${it} is not what the roll, the settings and the draw give.`],
  [/^student (\S+) unaffordable$/, it => `The prices of the bundle of ${it} come to more than its budget.`],
  [/^student (\S+) infeasible$/, it => `${it} ${INFEASIBLE}`],
  [/^student (\S+) tree (\w+) at (\d+)$/, treeWords],
  [/^seats (\S+) (\d+) of (\d+)$/, (it, used, seats) =>
    `In the second stage ${used} students have ${it}, which has ${seats} seats.`],
  [/^turn (\d+) order$/, it => `Turn ${it} of the aftermarket is not the one that is due.`],
  [/^turn (\d+) unaffordable$/, it => `The prices of the bundle of turn ${it} come to more than the raised budget.`],
  [/^turn (\d+) infeasible$/, it => `The student of turn ${it} ${INFEASIBLE}`],
  [/^turn (\d+) taken$/, it => `At turn ${it} the student takes a section that it does not hold and that has no free `
    + `seat.`],
  [/^turn (\d+) tree (\w+) at (\d+)$/, (it, ...where) => treeWords(`turn ${it}`, where[0], where[1])],
  [/^not quiet after (\d+) turns$/, it =>
    `The aftermarket ends after ${it} turns, before a whole pass without a change.`],
  [/^final (\S+)$/, it => `What ${it} holds in the end is not its bundle after its last turn.`],
  [/^used (\S+)$/, it => `The used seats of ${it} are not those that the bundles in the end take, `
    + 'or its seats are not those of the catalogue.'],
];

/**
 * What a finding of the program means.
 * @param {string} words
 */
export function findingWords(words) {
  for (const [pattern, told] of FINDINGS) {
    const found = pattern.exec(words);
    if (found) return typeof told === 'string' ? told : told(...found.slice(1));
  }
  return words;
}

/**
 * What else there is to say of a text that does not have the form that is due, or does not take the sessions.
 * @param {string} finding @param {Parts} parts
 * @returns {string[]}
 */
function causesOf(finding, parts) {
  const { bytes, name } = parts.text;
  if (finding.startsWith('journal')) return sessionsWords(parts.sessions, orderOf(bytes));
  if (!finding.startsWith('line')) return [];
  const as = bytes.length ? savedAs(bytes) : 'empty';
  if (as) return [`${name} is ${as}.`];
  const marks = [
    bytes[0] === 0xef && bytes[1] === 0xbb && 'begins with a byte order mark',
    bytes.includes(13) && 'has carriage returns (line ends of CR LF)',
  ].filter(Boolean);
  const text = decoded(bytes);
  return [
    ...marks.length ? [`${name} ${marks.join(' and ')}. No published text does: an editor, a spreadsheet or the mail `
      + `saved `
      + 'it anew. Take the file as it was published.'] : [...formWords(finding, parts), firstLineWords(finding, parts)],
    ...strangersIn(text, 'budget', rollIn(parts), 'student', parts.roll.name),
    ...strangersIn(text, 'price', catalogueIn(parts), 'section', parts.catalogue.name),
  ].filter(Boolean);
}

/** @param {string} finding @param {Parts} parts */
function firstLineWords(finding, { catalogue, roll }) {
  if (finding !== 'line 1 form') return '';
  const columns = (/** @type {GivenFile} */ it) => recordAt(decoded(it.bytes), 1).length;
  const first = `course-match ${columns(catalogue) > 5 || columns(roll) > 4 ? 2 : 1}`;
  return `By the headers of ${catalogue.name} and ${roll.name} the first line is to be “${first}”.`;
}

/**
 * The lines of a text, the tables beside it, and where its parts begin.
 * @param {Parts} parts
 */
function layoutOf(parts) {
  const catalogue = catalogueIn(parts), roll = rollIn(parts), lines = new Lines(parts.text.bytes);
  const turns = turnCount(lines, linesOf(roll.length, catalogue.length, 0).turns);
  return { catalogue, roll, lines, at: linesOf(roll.length, catalogue.length, turns) };
}

/**
 * How a line begins that is due, and which of its sections are none; nothing where it begins so and has none such.
 * @param {string} finding @param {Parts} parts
 */
function formWords(finding, parts) {
  const number = Number(/^line (\d+) form$/.exec(finding)?.[1]);
  if (!number) return [];
  const { catalogue, roll, lines, at } = layoutOf(parts), text = lines.at(number) ?? '';
  /** @type {[string, number, { name: string }[]][]} */
  const named = [
    ['budget', at.budgets, roll], ['start', at.starts, catalogue], ['price', at.prices, catalogue],
    ['bundle', at.bundles, roll], ['final', at.finals, roll], ['used', at.used, catalogue],
  ];
  const [word, from, table] = named.find(([, first, all]) => number >= first && number < first + all.length) ?? [];
  const due = word && `${word} ${table[number - from].name} `;
  const known = new Set(catalogue.map(it => it.name)), bundle = text.slice(text.indexOf('[') + 1 || text.length);
  const names = bundle.slice(0, LONGEST_BUNDLE).split(']', 1)[0].split(',');
  const strange = names.slice(0, 20).filter(it => it && !known.has(it));
  return [
    due && !text.startsWith(due) ? `The line that is due there begins with “${due.trim()}”.` : '',
    strange.length ? `${parts.catalogue.name} has no section ${shortList(strange.map(brief))}.` : '',
  ];
}

/** How much of what is to be a bundle is looked at: one of eight sections is shorter. */
const LONGEST_BUNDLE = 2000;

/** Of how many names of a text's lines it is told how they differ from a table's: no market has so many. */
const MOST_NAMED = 4000;

/**
 * How the names of a text's lines differ from those of a table, in words; nothing where they do not.
 * @param {string} text @param {string} word @param {{ name: string }[]} table @param {string} one @param {string} name
 */
function strangersIn(text, word, table, one, name) {
  const found = text.matchAll(new RegExp(`^${word} ([^ \\r\\n]*)`, 'gm')), named = new Set();
  for (const it of found) {
    if (named.size === MOST_NAMED) break;
    named.add(it[1]);
  }
  const all = named.size === MOST_NAMED ? `first ${plural(MOST_NAMED, one)}` : plural(named.size, one);
  const known = new Set(table.map(it => it.name));
  const strange = [...named].filter(it => !known.has(it)), lacking = [...known].filter(it => !named.has(it));
  return [
    strange.length ? `Of the ${all} of the text ${name} lacks ${grouped(strange.length)} `
      + `(${shortList(strange.map(brief))}).` : '',
    lacking.length && named.size
      ? `Of the ${plural(known.size, one)} of ${name} the text has no ${word} for ${lacking.length} `
        + `(${shortList(lacking)}).`
      : '',
    strange.length > 1 && lacking.length ? `It may be the text of another term than ${name}.` : '',
  ];
}

/** How much of a line is shown before and behind the sign that a finding names. */
const SHOWN_BEFORE = 60, SHOWN_BEHIND = 80, SHOWN_ALONE = 300;

/**
 * The line of the text that a finding names, and where in its last word, or in the order, if it names that.
 * @param {string} words @param {Parts} parts
 * @returns {Excerpt | null}
 */
export function excerptOf(words, parts) {
  const { catalogue, roll, lines, at } = layoutOf(parts), [word, second] = words.split(' ');
  const student = roll.findIndex(it => it.name === second), section = catalogue.findIndex(it => it.name === second);
  const line = new Map([
    ['line', Number(second)], ['journal', at.order], ['budget', at.budgets + student],
    ['student', at.bundles + student],
    ['seats', at.prices + section], ['turn', at.turns + Number(second) - 1], ['not', at.finals],
    ['final', at.finals + student], ['used', at.used + section],
  ]).get(word);
  if (!line) return null;
  const text = lines.at(line) ?? '', sign = signIn(words, text);
  if (sign === null) {
    const before = text.length > SHOWN_ALONE ? text.slice(0, SHOWN_ALONE - 3) + '..' : text;
    return { line, column: null, before: visible(before), marked: '', behind: '' };
  }
  const from = Math.max(0, Math.min(sign - SHOWN_BEFORE, text.length));
  return {
    line, column: sign + 1, before: visible((from ? '.. ' : '') + text.slice(from, sign)),
    marked: visible(text[sign] ?? ' '), behind: visible(text.slice(sign + 1, sign + SHOWN_BEHIND)),
  };
}

/**
 * Where in a line the sign stands that a finding names, from 0: of a tree, or an entry of the order.
 * @param {string} words @param {string} text
 */
function signIn(words, text) {
  const [word, , number] = words.split(' '), byte = /tree \w+ at (\d+)$/.exec(words)?.[1];
  if (word === 'journal') return text.split(' ').slice(0, Number(number)).join(' ').length + 1;
  return byte === undefined ? null : text.lastIndexOf(' ') + 1 + Number(byte);
}

const AGAIN = 'Nothing is lost: correct it and give the files again. The first fault alone is told.';
const NOT_TRUSTED = 'Do not trust it as it stands: compare the line that is named. If all files are of one term, and '
  + 'as the school published them, ask the school about that line.';

/** What whoever has its own lines alone does. */
const OWN_CHECK = 'Whoever has its own lines alone gives these and no other session: then the page answers for that '
  + 'student (GUIDE, “How a student checks its own bundles”).';
const OTHER_SESSIONS = 'Give the sessions of this text, all of them and no others. If these are they, as the school '
  + `published them, do not trust the text. ${OWN_CHECK}`;

/** What is told where not all orders of the sessions were tried. */
const OTHER_ORDERS = 'That is so in the order of the list, and in none of the first orders that were tried does '
  + 'the text hold. The sessions can stand in others, since several have equally many commands: put them into the '
  + 'order that the school says (“Up” in the list of the files).';

/** What is told of work that was stopped. */
export const STOPPED_WORDS = { title: 'Stopped', words: 'The work was stopped before its end. Nothing is lost.' };

/**
 * What an answer says, by its status. `line` is its last line, `name` the file that it names.
 * @type {Record<string, (of: { line: string, call: Call, name: string }) => Told>}
 */
const TOLD = {
  2: ({ name }) => ({ title: 'A file cannot be read', words: `${name} cannot be read.`, help: AGAIN }),
  3: ({ line, call }) => ({ title: 'A file is refused', words: refusalWords(line, call), help: AGAIN }),
  4: ({ name }) => ({
    title: 'A file is too long', help: AGAIN,
    words: `${name} is too long. A file has at most 16,777,216 bytes (a published text 67,108,864), and all sessions `
      + 'together have at most 200,000 commands.',
  }),
  5: ({ line }) => ({
    title: 'No prices were found',
    words: 'The search found no prices whose error the settings accept. The least error that it saw is '
      + `${/\d+$/.exec(line)[0]}.`,
    help: 'Set “accept” to that number, or give it more “turns”, and run again with the same files.',
  }),
  6: () => ({
    title: 'There is no room for the answer', help: 'Close other tabs and try again.',
    words: 'The answer did not fit into the memory that the browser gives to this page.',
  }),
  7: () => ({
    title: 'There is not enough memory', help: 'Close other tabs and programs and try again; nothing is lost.',
    words: 'The browser did not give this page the memory that the work needs (status 7, out of memory).',
  }),
  8: ({ line }) => {
    const finding = line.replace('finding: ', ''), isJournal = finding.startsWith('journal');
    const title = isJournal ? 'The text and these sessions do not fit together' : 'This text does not hold';
    return { title, words: findingWords(finding), finding, help: isJournal ? OTHER_SESSIONS : NOT_TRUSTED };
  },
  9: ({ line }) => ({
    title: 'There is no such name',
    words: `No ${line.endsWith('6') ? 'student of the roll' : 'section of the catalogue'} has this name. `
      + 'Capital letters count.',
  }),
  stopped: () => STOPPED_WORDS,
};

/**
 * What an answer that is no result says.
 * @param {Answer} answer @param {Call} call @returns {Told}
 */
export function answerWords(answer, call) {
  const line = (answer.text ?? '').trimEnd().split('\n').at(-1), number = Number(/^input (\d+)/.exec(line)?.[1]);
  const failed = () => ({
    title: 'The page failed',
    words: `The program did not end as it should (${answer.fault ?? answer.status}). Please keep the files and tell `
      + 'whoever gave you this page.',
  });
  return (TOLD[answer.status] ?? failed)({ line, call, name: call.inputs[number - 1]?.name });
}


/**
 * What is told of a text that was refused.
 * @param {Checked} checked
 * @returns {Refusal}
 */
export function refusalOf({ answer, call, parts, isCut }) {
  const told = answerWords(answer, call), { finding } = told;
  if (!finding) return { told, excerpt: null, causes: [], first: [] };
  const isUnsure = isCut && !/^line/.test(finding);
  const unsure = isUnsure ? { title: 'This text was not found to hold', help: OTHER_ORDERS } : {};
  const silent = finding.startsWith('journal') ? silentAmong(parts.sessions, orderOf(parts.text.bytes)) : [];
  return {
    told: { ...told, ...unsure }, excerpt: excerptOf(finding, parts), causes: causesOf(finding, parts),
    first: silent.length ? [...silent, WISH_LINE] : [],
  };
}
