"use strict";
// The module: what a subcommand makes of octets (mtpbank_text of include/mtpbank.h). Addresses and lengths are BigInts.

/** Codes of mtpbank_text that a caller can meet. */
const NO_MEMORY = 16, NO_ROOM = 50;

class Texts {
  /** Starts the module of these octets. */
  static async start(octets) {
    const texts = new Texts();
    texts.module = await WebAssembly.compile(octets);
    texts.begin();
    return texts;
  }

  /** Begins with memory that nothing was written to. */
  begin() {
    this.calls = new WebAssembly.Instance(this.module, {}).exports;
    this.room = { printed: 1 << 16, told: 1 << 12 };
  }

  /** What the subcommand of this number prints of the input, and the lines that tell of a fault: none where it ended well. */
  make(number, input) {
    try {
      for (;;) {
        const made = this.tried(number, input);
        if (made) return made;
      }
    } catch (error) {
      this.begin();
      throw error;
    }
  }

  /** The same; nothing where there was too little room, which is larger then. */
  tried(number, input) {
    const sizes = [input.length, this.room.printed, this.room.told, 16];
    const [from, printed, told, lengths] = sizes.map((size) => this.taken(size));
    this.octets(from, input.length).set(input);
    const [length, printedRoom, toldRoom] = sizes.map(BigInt);
    const code = this.calls.mtpbank_text(number, from, length, printed, printedRoom, told, toldRoom, lengths);
    if (code === NO_MEMORY) throw new Error("there is too little memory");
    if (code !== 0 && code !== NO_ROOM) throw new Error(`mtpbank_text answered ${code}`);
    const view = new DataView(this.calls.memory.buffer, Number(lengths), 16);
    const [printedLength, toldLength] = [0, 8].map((at) => Number(view.getBigUint64(at, true)));
    const made = code === 0 && {
      printed: this.octets(printed, printedLength).slice(),
      told: new TextDecoder().decode(this.octets(told, toldLength)),
    };
    for (const block of [from, printed, told, lengths]) this.calls.page_give(block);
    this.room = { printed: Math.max(this.room.printed, printedLength), told: Math.max(this.room.told, toldLength) };
    return made;
  }

  taken(size) {
    const block = this.calls.page_take(BigInt(size));
    if (block === 0n) throw new Error("there is too little memory");
    return block;
  }

  octets(at, length) {
    return new Uint8Array(this.calls.memory.buffer, Number(at), length);
  }
}
