// The numbers by which the journal tells those apart who are at work at once.

/** Numbers from 1 on, each in use by one at a time, without those of a journal's workers who are gone. */
export class Workers {
  #free = [];
  #next = 1;
  #gone;

  constructor(gone) {
    this.#gone = gone;
  }

  take() {
    const free = this.#free.pop();
    if (free !== undefined) return free;
    while (this.#gone.has(this.#next)) this.#next++;
    return this.#next++;
  }

  /** The number is free again. */
  give(worker) {
    this.#free.push(worker);
  }
}
