/* For tsc: what the scripts beside page.js declare, and the objects that several modules hand on. */
interface Example {
  name: string; text: string; from?: string[];
  pi?: string; m: number; k?: number; w?: number; pty?: string; lost?: number[];
}
declare const RDSRT_ENGINE: string;
declare const RDSRT_WORKER: string;
declare const RDSRT_EXAMPLES: Record<string, Example[]>;
/** What programs/station sends for letters that rdsrt's character table lacks. */
declare const RDSRT_CLOSEST: Record<string, string>;
interface FocusOptions { focusVisible?: boolean; }
interface ARIAMixin { ariaInvalid: string | null; }
type Packing = ReadableWritablePair<Uint8Array, Uint8Array>;
declare const CompressionStream: { new (format: string): Packing };
declare const DecompressionStream: { new (format: string): Packing };

/** A note of the program, with the facts of its kind: docs/FORMATS.md, "Notes on standard error". */
interface Note {
  kind: string; text: string; advice?: string;
  slot?: number; line?: number; row?: number; time?: string;
  fault?: string; of?: string; rule?: string; earlier?: number; needed?: number;
  count?: number; judged?: number; harmless?: number | boolean; because?: string;
  first_slot?: number; first_line?: number; first_time?: string;
  last_slot?: number; last_line?: number; last_time?: string;
  slots?: number; lines?: number; empty?: number; texts?: number; groups?: number; room?: number; hides?: number;
  character?: string;
}

/** The slots of a log: the first byte of each, where they end, and the programmes with their numbers of groups. */
interface LogPlaces { starts: Uint32Array; count: number; end: number; malformed: number; programmes: [number, number][]; }

/** The groups of a log: the line and the slot of each. */
interface Groups { lines: Uint32Array; slots: Uint32Array; count: number; }

/** What the page judges and shows of a file. */
interface Recording {
  bytes: Uint8Array; m: number; isFilled: boolean; hasTimes: boolean; hasMark: boolean;
  added: number; untimed: number; cut: number | null; notes: Note[];
  /** The lines in the file of the groups that `slots` keeps, and the lines and slots of these groups here. */
  rows: Uint32Array; places: Uint32Array; slots: Uint32Array;
}

/** All faults of a log, in the order of the slots: the number of the kind of each. */
interface FaultList { kinds: string[]; slots: Int32Array; numbers: Uint8Array; }
interface Audit { list: FaultList; notes: Note[]; first: Note[]; command: string; output: string; }
interface Witness { slot?: number; lost: [number, number] | null; shown: string[]; upto?: number | null; failure?: string; }

/** What a question to the program is about. */
interface Asked { pi: string; tags: number; m: number; k: number; w: number; running: boolean; padded: boolean; }
