// The types of the scripts, for `tsc --checkJs` alone: what a session is and what is answered to it, the elements of
// page.html by their ids, and what Debian's TypeScript does not know yet of browsers.

type Octets = Uint8Array;

/** Microseconds since 1970, in UTC. */
type Moment = number;

/** What a planner works on; it is never changed. */
interface Session {
  setup: Octets;
  forecast: Octets;
  /** A plan to be judged; empty where the page plans. */
  given: Octets;
  isInOrder: boolean;
  name: string;
  /** When step 1 begins, and how many minutes a step has, as they are typed. */
  begins: string;
  minutes: string | number;
  /** The begins of the steps of a mission and the end of the last one. */
  edges: Moment[] | null;
  passes: Pass[];
  mission: { file: string; files: Record<string, Octets> } | null;
  /** How many of the longest packets a unit of the mission has. */
  unit: number;
  packet: number;
  badPacket: string | null;
  isInBlocks: boolean;
  before: { steps: number; lost: number; sent: number; octets: number } | null;
  variants: Variant[];
  reference: number | null;
}

interface Pass {
  station: string;
  name: string;
  from: Moment | null;
  to: Moment | null;
  rate: string;
  channels: Record<string, string> | null;
  /** What it gives to which step: steps, which count from 1, with blocks. */
  windows: [number, number][];
  /** What was typed of it and cannot be read. */
  bad: Record<string, string> | null;
}

interface Variant {
  name: string;
  loss: number;
  session: Session;
  stores: [string, number][];
  /** What each pass sends: its label, blocks and octets. */
  sent: [string, number, number?][];
}

interface OfStore {
  arrived: number;
  lost: number;
  dumped: number;
  held: number;
}

/** What a plan's table says, of each step and of each store. */
interface Records {
  steps: (OfStore & { window: number; of: Map<string, OfStore> })[];
  stores: Map<string, OfStore & { most: number }>;
}

interface Refusal {
  number: number | null;
  row?: number;
  column?: number;
  line?: number;
  words: string;
  hint: string;
}

interface Verdict {
  kind: string;
  place: number;
  loss: number;
  bound: number;
}

/** The answer to a session, as far as it is known. */
interface Answer {
  session: Session;
  refused: Refusal | null;
  plan?: Octets;
  verdict?: Verdict;
  loss?: number | null;
  line?: string;
  chart?: Octets | null;
  table?: Octets | null;
  records?: Records | null;
  isWhole: boolean;
  done: number;
  coming?: Promise<void> | null;
}

/** What a pass sends: of each store, in all, and in each step. */
interface Sent {
  of: Map<string, number>;
  dumps: { step: number; id: string; blocks: number }[];
  sent: number;
}

/** How amounts are shown: pairs are those of a store's identifier and blocks. */
interface Amounts {
  unit: string;
  flow: string;
  volume(id: string, blocks: number): string;
  size(id: string, blocks: number): string;
  rate(id: string, blocks: number, step: number): string;
  total(pairs: [string, number][]): string;
  totalRate(pairs: [string, number][], step: number): string;
  sum(pairs: [string, number][]): number;
  shownSum(sum: number): string;
  pace(blocks: number, minutes: number, id?: string): string;
}

interface Scale {
  view: { from: number; to: number };
  fractionAt(place: number): number;
  box(left: number, right: number, low: number, high: number): string;
  isShown(left: number, right: number): boolean;
  bars<Row>(steps: Row[], low: (row: Row, nth: number) => number, high: (row: Row, nth: number) => number): string;
  spans(list: number[][]): string;
}

/** What the chart is drawn of. */
interface Drawn {
  session: Session;
  records: Records;
  count: number;
  /** Where steps begin and the last one ends: moments, or whole numbers where no times are said. */
  edges: number[];
  isTimed: boolean;
  whole: { from: number; to: number };
  amounts: Amounts;
  sent: Sent[];
  ids: string[];
  sizes: Map<string, (step: number) => number>;
  cuts: { id: string; steps: number[] }[];
  most: number;
  least: number;
}

/** Which part of which pass is moved; changes of one kind are undone as one. */
interface Grasped {
  nth: number;
  part: "all" | "begin" | "end";
  kind: string;
}

/** Moves a pass by so much, from where it is now or was at first; answers why it does not go there, or nothing. */
type Moves = (grasped: Grasped, by: number, isFromNow: boolean) => string;

/** What is done where a pass is moved, before and after a drag, and where it is taken back to the session before it. */
interface Drags {
  moves: Moves;
  ends(): void;
  takesBack(base: Session): void;
}

interface Fraction {
  n: bigint;
  d: bigint;
}

type Input = HTMLInputElement;
type Table = HTMLTableElement;
type Button = HTMLButtonElement;

interface ById {
  begins: Input; minutes: Input; packet: Input; name: Input; step: Input; files: Input; shade: Input; "in-order": Input;
  "in-units": Input; setup: Input; forecast: Input; given: Input; example: Input; stores: Table; passes: Table;
  grid: Table; variants: Table; "variants-passes": Table; worths: Table; "kept-list": Table; undo: Button; redo: Button;
  closer: Button; wider: Button; whole: Button; keep: Button; back: Button; rest: Button; ask: Button;
  chart: HTMLImageElement; question: HTMLDialogElement; "plan-box": HTMLDetailsElement; pass: HTMLFormElement;
}

interface Array<T> {
  with(at: number, value: T): T[];
  toSorted(compare?: (a: T, b: T) => number): T[];
}

interface Window {
  rudlayog: object;
}

declare class DecompressionStream {
  constructor(format: string);
  readonly readable: ReadableStream<Uint8Array>;
  readonly writable: WritableStream<Uint8Array>;
}
