// Runs the commands in WebAssembly, as a filter: what they ask of a system is here words, an input, an output and memory. The numbers of errors are
// Linux's, as in runtime.c, which has the same for a system.
const NO_FILE = 2, IS_PIPE = 29, NO_READER = 32; // errors: there are no files, the input is a pipe, and nobody reads the output
const NONE = -1n; // no word, no variable, or an error
const LEAST = 4; // the exponent of the smallest block
const HEAD = 8; // bytes before a block, of which the first has its exponent

// Memory in blocks of 2^n bytes, of which those that are given back serve again.
class Heap {
    #memory;
    #end;
    #free = Array.from({ length: 32 }, () => []);

    constructor(memory, base) {
        this.#memory = memory;
        this.#end = base; // a multiple of 16
    }

    // Where a block of some bytes begins, or null if there is no memory for it.
    take(size) {
        if (size > 2 ** 30) return null;
        const exponent = Math.max(LEAST, 32 - Math.clz32(size + HEAD - 1)), at = this.#free[exponent].pop() ?? this.#grow(2 ** exponent);
        if (at === null) return null;
        new Uint8Array(this.#memory.buffer)[at] = exponent;
        return at + HEAD;
    }

    #grow(size) {
        const at = this.#end, pages = Math.ceil((at + size - this.#memory.buffer.byteLength) / 65536);
        try {
            if (pages > 0) this.#memory.grow(pages);
        } catch {
            return null;
        }
        this.#end = at + size;
        return at;
    }

    // The bytes that a block has.
    sizeOf(block) { return 2 ** new Uint8Array(this.#memory.buffer)[block - HEAD] - HEAD; }

    give(block) { this.#free[new Uint8Array(this.#memory.buffer)[block - HEAD]].push(block - HEAD); }

    // A block with the same first bytes that has the size, or null.
    resize(block, kept, size) {
        if (size <= this.sizeOf(block)) return block;
        const larger = this.take(size);
        if (larger === null) return null;
        new Uint8Array(this.#memory.buffer).copyWithin(larger, block, block + kept);
        this.give(block);
        return larger;
    }
}

// What the program imports. `put` gets each part of its output, and says whether it takes more.
class System {
    #words;
    #input;
    #put;
    #read = 0;
    #error = 0;

    constructor(words, input, put) {
        this.#words = words.map((word) => new TextEncoder().encode(word));
        this.#input = input;
        this.#put = put;
    }

    begin({ memory, __heap_base: base }) {
        this.memory = memory;
        this.heap = new Heap(memory, base.value);
    }

    #bytes(at, length) { return new Uint8Array(this.memory.buffer, at, length); }

    #fail(number, answer) {
        this.#error = number;
        return answer;
    }

    // Writes whether there is a block, and where it begins.
    #say(to, block) {
        const view = new DataView(this.memory.buffer);
        view.setBigUint64(to, BigInt(block !== null), true);
        view.setBigUint64(to + 8, BigInt(block ?? HEAD), true);
    }

    #word(index, to, size) {
        const word = this.#words[index];
        if (word === undefined) return NONE;
        this.#bytes(to, size).set(word.subarray(0, size));
        return word.length <= size ? BigInt(word.length) : -2n;
    }

    #write(file, from, size) {
        const isTaken = file !== 1 || this.#put(this.#bytes(from, Number(size)));
        return isTaken ? size : this.#fail(NO_READER, NONE);
    }

    #take(to, size) {
        const part = this.#input.subarray(this.#read, this.#read + size);
        this.#bytes(to, part.length).set(part);
        this.#read += part.length;
        return BigInt(part.length);
    }

    imports() {
        return {
            rattle_alloc: (to, size) => this.#say(to, this.heap.take(Number(size))),
            rattle_realloc: (to, block, kept, size) => this.#say(to, this.heap.resize(block, Number(kept), Number(size))),
            rattle_dealloc: (block) => this.heap.give(block),
            rattle_arg: (index, to, size) => this.#word(Number(index), to, Number(size)),
            rattle_env: () => NONE,
            rattle_errno: () => this.#error,
            rattle_set_errno: (number) => { this.#error = number; },
            ndef_host_signal: () => 0n,
            ndef_host_isatty: () => 0,
            ndef_host_lseek: () => this.#fail(IS_PIPE, NONE),
            ndef_host_read: (file, to, size) => this.#take(to, Number(size)),
            ndef_host_write: (file, from, size) => this.#write(file, from, size),
            ndef_host_open: () => this.#fail(NO_FILE, -1),
            ndef_host_statx: () => this.#fail(NO_FILE, -1),
            ndef_host_close: () => 0,
        };
    }
}

// The octets of packed ones.
async function unpacked(packed) {
    const stream = new Blob([packed]).stream().pipeThrough(new DecompressionStream("gzip"));
    return new Response(stream).arrayBuffer();
}

export class Program {
    #module;

    // The program of its octets, packed by gzip.
    static async load(packed) {
        const program = new Program();
        program.#module = await WebAssembly.compile(await unpacked(packed));
        return program;
    }

    // Runs the command that the first word names on an input, and answers its status. `put` gets its output in parts, which it copies if it
    // keeps them, and says whether it takes more.
    run(words, input, put) {
        const system = new System(words, input, put), { exports } = new WebAssembly.Instance(this.#module, { env: system.imports() });
        system.begin(exports);
        return exports.ndef_commands();
    }
}
