// The types of what the page asks and tells for one student alone.

/** A student's own lines as a session, byte for byte, and how many commands they are. */
interface Said {
  bytes: Uint8Array;
  count: number;
}

/** What a market of one student is made of; of `allowed`, where it is given, the other sections are not to be had. */
interface Alone extends Bundle {
  name: string;
  credits: number;
  courses: number;
  budget: number;
  prices: number[];
  said: Said;
  allowed?: Set<string>;
}

/** A stage in which a student took a bundle: the second one, whose pass is 0, or a turn of the aftermarket. */
interface Stage extends Bundle {
  pass: number;
  budget: number;
  before: string[];
  free?: Map<string, number>;
  allowed?: Set<string>;
}

/** A stage as the program judges it: its finding, null where it holds, or why it was not judged, in words. */
interface JudgedStage extends Stage {
  finding: string | null;
  unjudged?: string;
}

/** What `explain` said: the first reason, and, where there is one, the best bundle with the section. */
interface Explanation {
  reason: string;
  other?: string;
  best?: string[];
  worth?: number;
  lost?: number;
  tree?: string;
}

/** A rating that is tried in place of what was said. */
interface Tried {
  section?: string;
  points?: number;
  budget: number;
}

/**
 * What the student would take at these prices, what that is worth by the ratings that are tried, and its prices
 * together.
 */
interface Demanded {
  names: string[];
  worth: number;
  price: number;
}

/** A row of a week: a time, and for each day the sections that meet then. */
interface WeekRow {
  from: string;
  to: string;
  cells: Section[][];
}

/** A week; `without` are the sections that have no meetings. */
interface Week {
  days: string[];
  rows: WeekRow[];
  without: Section[];
}

/** A step through the signs of a tree; `at` is its first byte. */
interface Step {
  kind: 'taken' | 'closed' | 'bundle' | 'leaf' | 'fault' | 'end';
  at: number;
  sign: string;
  /** to where the signs step back with it, in words; empty where they go on */
  back: string;
  /** the section that it speaks of, which stands in front of the words; empty where it speaks of none */
  section: string;
  words: string;
}

/** A node of a tree on the way through its signs. */
interface NodeAt {
  walk: Walk;
  chosen: number[];
  place: number;
}

/**
 * What a student rates in the form; a pair's key has its two sections in the order of the catalogue, with a blank
 * between.
 */
interface WishList {
  name: string;
  ratings: Map<string, number>;
  pairs: Map<string, number>;
}

/**
 * How a school spells names. Of a kind (`student`, `section`, `course`) and a name, `shown` gives the spelling, or the
 * name where there is none; `meant` gives the names that may be meant by what somebody typed, exact spellings first.
 */
interface Spelling {
  shown(kind: string, name: string): string;
  meant(kind: string, typed: string): string[];
  count: number;
}

/** A school's spellings: of each kind, by names. */
type Originals = Map<string, Map<string, string>>;

/** What the worker reads of the files for the form, as far as they can be read; of a strange one the name is told. */
interface ReadTables {
  catalogue: Section[];
  roll: Student[];
  originals: Originals | null;
  strange: string[];
}

/** What the form is made of: the files that were given, as far as they play a part in it. */
interface RatingFiles {
  file?: GivenFile;
  catalogue: Section[];
  roll: Student[];
  sessions: GivenFile[];
  spelling: Spelling;
  strange: string[];
}
