// The codes of include/wanzoche.h that are met here: what the library's calls answer, and the verbs of a use.

export const CLOSED = 0;
export const STARTED = 1;
export const BLOCKED = 2;
export const USED = 4;
export const FINISHED = 10;
export const STALE = 11;
export const NO_ROOM = 13;
export const CAN_START = 15;
export const WRITTEN = 17;
export const TOO_SMALL = 18;
export const OPENED = 19;
export const OUT_OF_MEMORY = 22;
export const SOUND = 23;
export const WRONG_LINE = 24;
export const JOURNAL_TOO_LONG = 25;
export const NO_JOURNAL = 28;
export const TOO_LONG = 32;
export const TOO_MANY = 45;
export const TAKEN = 46;
export const ALL_DONE = 47;
export const STALLS = 48;
export const REFUSED = 49;
export const UNDECIDED = 50;
export const SCRIPT_TOO_LONG = 51;
export const WITHHELD = 57;
export const NEXT = 58;
export const NOBODY = 59;

export const VERBS = ["put", "take", "look", "add"];

export const MOST_LINES = 1_048_576;
/** A size that is enough for where each of 16 processes is. */
export const STANDINGS = 1280;
