// A text as whoever has no lines but its own can know it: the form and all budgets by the program, what needs nobody's
// ratings by the page's own reading, and of each student whose lines were given what it said.

import { blankSessions, commandLines, namedIn, saidIn, sessionOf } from './alone.js';
import { decoded } from './bytes.js';
import { callOf } from './program.js';
import { findingWithoutRatings } from './seats_and_turns.js';
import { catalogueIn, rollIn } from './tables.js';
import { countsOf, publishedOf } from './texts.js';
import { REPLIES, orderOf, repliesOf, wishedLines } from './wishes.js';
import { brief, listed, plural, shortList } from './wording.js';

/** The findings that `check` tells before it looks at a bundle: with these a text is refused, whoever said what. */
const BEFORE_BUNDLES = /^finding: (?:line|journal|budget)/;

/**
 * The files that have the lines of one student alone: those that are known as such where no sessions are there; or the
 * sessions, where each names one student and the text does not take so many commands.
 * @param {GivenFile[]} files
 * @param {Parts} parts
 * @param {boolean} areOwn whether the sessions are so
 * @returns {GivenFile[]}
 */
export function ownFiles(files, { sessions }, areOwn) {
  return sessions.length ? areOwn ? sessions : [] : files.filter(it => it.kind === 'own');
}

/**
 * Whose lines files have: for each student of the roll its lines, and in words what was passed over. Of a file the
 * lines of every student are taken that it names; of two files that name one student the later one counts.
 * @param {GivenFile[]} files
 * @param {Student[]} roll
 * @returns {{ said: Map<string, Said>, notes: string[] }}
 */
export function ownLines(files, roll) {
  /** @type {Map<string, Said>} */
  const said = new Map();
  const known = new Set(roll.map(it => it.name)), notes = [];
  for (const { name: file, bytes } of files) {
    const { names, others } = namedIn(bytes), strange = [...names.keys()].filter(it => !known.has(it));
    for (const it of names.keys()) {
      if (!known.has(it)) continue;
      if (said.has(it)) notes.push(`Several files have lines of ${it}: those of ${file} are taken.`);
      said.set(it, saidIn(bytes, it));
    }
    if (strange.length) {
      notes.push(`${file} has lines of ${shortList(strange.map(brief))}, whom the roll does not have: they are left `
        + 'out.');
    }
    const [name, is] = others > 1 ? ['name', 'are'] : ['names', 'is'];
    if (others) notes.push(`${plural(others, 'line')} of ${file} ${name} no student, and ${is} left out.`);
  }
  return { said, notes };
}

/**
 * Why files are taken for own lines that do not say so themselves.
 * @param {string[]} names the files'
 */
const takenWords = names => names.length === 1
  ? `${names[0]} names one student alone, so it is taken for what this student told the school. The school made the `
    + 'text from other files, which have everybody\'s lines.'
  : `Each of ${shortList(names)} names one student alone, so it is taken for what this student told the school. The `
    + 'school made the text from other files, which have everybody\'s lines.';

/**
 * The market of whoever has its own lines alone; or the answer by which a file or the text is refused. A finding of the
 * page's own reading comes as `finding`.
 * @param {import('./one_student.js').Ask} ask
 * @param {Parts} parts without sessions
 * @param {GivenFile[]} lines
 * @returns {Promise<{ market?: ReadMarket, ms?: number, refusal?: Checked, finding?: string }>}
 */
export async function ownMarketOf(ask, parts, lines) {
  const blank = { ...parts, sessions: blankSessions(orderOf(parts.text.bytes)) };
  const call = callOf('check', blank), answer = await ask('Checking form and budgets', call);
  if (answer.status !== 0 && (answer.status !== 8 || BEFORE_BUNDLES.test(answer.text))) {
    return { refusal: { answer, call, parts: blank } };
  }
  const catalogue = catalogueIn(parts), roll = rollIn(parts), settings = JSON.parse(decoded(parts.settings.bytes));
  const text = publishedOf(parts.text.bytes, catalogue, roll);
  const finding = findingWithoutRatings({ text, catalogue, roll, settings });
  if (finding) return { finding };
  const { said, notes } = ownLines(lines, roll);
  const sessions = lines.filter(it => it.kind === 'session').map(it => it.name);
  if (sessions.length) notes.unshift(takenWords(sessions));
  const heard = { ...parts, sessions: [sessionOfAll(said)] };
  const wished = said.size ? callOf('prefer', heard) : null;
  const preferred = wished && await ask('Reading what was wished', wished);
  if (preferred && preferred.status !== 0) return { refusal: { answer: preferred, call: wished, parts: heard } };
  if (preferred) notes.push(...repliesWords(repliesOf(preferred.text, heard.sessions)));
  return { ms: answer.ms, market: {
    isOwn: true, notes, catalogue, roll, text, settings, said,
    wished: preferred ? wishedLines(preferred.text) : new Map(),
    sectionOf: new Map(catalogue.map(it => [it.name, it])),
    counts: countsOf(text.bundles.map(it => it.names), catalogue), endCounts: countsOf(text.finals, catalogue),
  } };
}

/**
 * The lines of all these students as one session.
 * @param {Map<string, Said>} said @returns {GivenFile}
 */
const sessionOfAll = said => ({
  name: 'own lines', kind: 'session',
  bytes: sessionOf([...said.values()].flatMap(it => commandLines(it.bytes))),
});

/**
 * What the desk did not carry out of the own lines, in words.
 * @param {any[]} replies
 */
function repliesWords(replies) {
  if (!replies.length) return [];
  const told = replies.slice(0, 5).map(it => `“${it.command}” (${REPLIES[it.reply] ?? it.reply})`);
  const more = replies.length > told.length ? ` and ${replies.length - told.length} more` : '';
  return [`The desk carries out all of the lines but ${listed(told)}${more}.`];
}
