// The types of the page's values, for JSDoc.

/** What a file is taken for. */
type Kind = 'catalogue' | 'roll' | 'settings' | 'text' | 'session' | 'manifest' | 'own' | 'names' | 'prices' | 'other'
  | 'unknown';

/** A file that was given. One that could not be read has no bytes. `sum` is its SHA-256, once it is known. */
interface GivenFile {
  name: string;
  bytes: Uint8Array;
  kind: Kind;
  isUnread?: boolean;
  sum?: string | null;
}

/** A file as the browser gives it. */
interface BrowserFile {
  name: string;
  file: File;
}

/** When a section meets: a day's letter, and two times as four digits. */
interface Meeting {
  day: string;
  from: string;
  to: string;
}

/** A row of the catalogue; `at` is its place, from 0. */
interface Section {
  at: number;
  name: string;
  course: string;
  seats: number;
  credits: number;
  meetings: Meeting[];
  parts: string;
}

/** A row of the roll; `at` is its place, from 0. */
interface Student {
  at: number;
  name: string;
  base: number;
  credits: number;
  courses: number;
  carry: number;
}

/** The files of one market, by what they are. */
interface Parts {
  catalogue?: GivenFile;
  roll?: GivenFile;
  settings?: GivenFile;
  prices?: GivenFile;
  text?: GivenFile;
  sessions: GivenFile[];
}

/** A bundle with its tree. */
interface Bundle {
  names: string[];
  tree: string;
}

/** A bundle of a text, and from where to where its tree stands in the text's bytes. */
interface PrintedBundle {
  names: string[];
  from: number;
  to: number;
}

/** A turn of the aftermarket; `number` counts from 0, `student` is a place in the roll. */
interface Turn extends PrintedBundle {
  number: number;
  pass: number;
  student: number;
}

/** A turn as it stood: what was held before it, how many seats were free, and what was to be had. */
interface TurnAsItStood extends Turn {
  before: string[];
  free: Map<string, number>;
  allowed: Set<string>;
}

/** A turn that changed what the student holds. */
interface Change extends Turn {
  gave: string[];
  took: string[];
}

/** At which line each part of a published text begins; the first line is 1. */
interface TextLines {
  order: number;
  budgets: number;
  starts: number;
  error: number;
  prices: number;
  bundles: number;
  turns: number;
  finals: number;
  used: number;
}

/** What stands in a published text that was accepted. */
interface PublishedText {
  order: number[];
  budgets: number[];
  starts: number[];
  error: string;
  prices: number[];
  bundles: PrintedBundle[];
  turns: Turn[];
  finals: string[][];
  used: number[];
  seats: number[];
}

/** What one student said, as it stands when the desk closes. */
interface Wishes {
  ratings: Map<string, number>;
  pairs: [string, string, number][];
}

/** What each student said, as it stands when the desk closes. */
interface WishesOfAll {
  get(name: string): Wishes | undefined;
}

/** What a student's bundles are worth to it, and how many sections it rated above 0. */
interface Worths {
  rated: number;
  second: number;
  end: number;
}

/** What the desk did not carry out, and why; `row` is the line of the file. */
interface Reply {
  file: string;
  row: number;
  reply: string;
  command: string;
}

/** What the views need of the settings. */
interface Settings {
  spread: number;
  raise: number;
  accept: number;
}

/** What `audit` said of one student: envy of no greater budgets, of greater ones, and of those beyond one section. */
interface Envy {
  counts: number[];
  sees?: { other: string; names: string[]; but: string | null };
}

/** Who envies whom, in both stages; the totals apart, since a student may have any name. */
interface EnvyOfAll {
  settled: Map<string, Envy>;
  final: Map<string, Envy>;
  totals: { settled: number[]; final: number[] };
}

/**
 * A market whose text holds, as the views show it. Where own lines alone are there, `notes` says what of them was
 * passed over.
 */
interface Market {
  parts: Parts;
  files: GivenFile[];
  catalogue: Section[];
  roll: Student[];
  settings: Settings;
  text: PublishedText;
  wishes: WishesOfAll;
  worths?: Worths[];
  sectionOf: Map<string, Section>;
  counts: Map<string, number>;
  endCounts: Map<string, number>;
  ms: number;
  said: Map<string, Said>;
  spelling: Spelling;
  isOwn?: boolean;
  notes?: string[];
  envy?: EnvyOfAll;
  asksEnvy?: Promise<Answer> | null;
}

/** One call of the program: its words, and its inputs, of which the first is input 1. */
interface Call {
  form: string;
  words: string[];
  inputs: GivenFile[];
  files: [string, Uint8Array][];
}

/**
 * What a call answered. Of a run that was stopped the status is `stopped`, of one that failed in the browser `fault`.
 */
interface Answer {
  status: number | 'stopped' | 'fault';
  text: string;
  out: Uint8Array;
  ms: number;
  memory: number;
  fault?: string;
}

/** An answer with its call and the files that it was of. */
interface Checked {
  call: Call;
  answer: Answer;
  parts: Parts;
  isCut?: boolean;
}

/** What is told of an answer that is no result. */
interface Told {
  title: string;
  words: string;
  help?: string;
  finding?: string;
}

/** Where a finding stands: a line, and in it, from 1, the column of the sign that it names, if it names one. */
interface Excerpt {
  line: number;
  column: number | null;
  before: string;
  marked: string;
  behind: string;
}

/** What is told of a text that was refused, where it stands, and why it may be so. */
interface Refusal {
  told: Told;
  excerpt: Excerpt | null;
  causes: string[];
  /** What stands first, where a file has no line of a wish; the rest is then folded. */
  first: string[];
}

/** What the desk replies to the wishes, and what they come to. */
interface Look {
  replies: Reply[];
  all: number;
  silent: string[];
  unwanted: string[];
  several: string[];
}

/** A market as the worker reads it: what students want as lines, and without the files and the school's spelling. */
type ReadMarket = Omit<Market, 'parts' | 'files' | 'spelling' | 'ms' | 'wishes'> & { wished: Map<string, string> };

/** A place of a student's menu: a section that it rated above 0; `shown` is the school's spelling of it. */
interface Place {
  place: number;
  section: Section;
  name: string;
  shown: string;
  rating: number;
  price: number;
}

/** A student's menu. `together` has of each place the adjustments with others, `of` the place of each section. */
interface Menu {
  places: Place[];
  together: Map<number, number>[];
  of: Map<string, number>;
}

/** A node of a tree; `at` is its first byte in the tree's text. */
interface TreeNode {
  symbol?: string;
  at?: number;
  number?: number;
  with?: TreeNode;
  without?: TreeNode;
}

/** What a tree is walked with. */
interface Walk {
  menu: Menu;
  budget: number;
  credits: number;
  courses: number;
  allowed?: Set<string>;
  champion: number[];
  worth: number;
  forced: number | null;
}

/** What is left of tokens, credits and sections. */
interface Left {
  b: number;
  c: number;
  m: number;
}

/** What is packed into the page. */
type Packed = 'module' | 'example' | 'worker';

/** What the page was built from, and the SHA-256 of what was packed into it. */
interface About {
  version: string;
  kit: string;
  proved: boolean;
  sums: Record<Packed, string>;
}

/** A part that opens; `fill` makes what stands in it, once. */
interface Opening extends HTMLDetailsElement {
  fill(): void;
}

/** A column of a grid. */
interface Column<Row> {
  head: string;
  of(row: Row): string | number;
  show?(row: Row): Node | string;
  isText?: boolean;
}

interface Array<T> {
  findLastIndex(holds: (it: T, at: number) => boolean): number;
}

declare class DecompressionStream {
  constructor(format: string);
  readonly readable: ReadableStream;
  readonly writable: WritableStream;
}
