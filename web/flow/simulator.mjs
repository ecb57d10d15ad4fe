// The simulator in a WebAssembly module with a 64-bit memory.

// A module of nothing but a 64-bit memory: valid where such memories are there.
const PROBE = Uint8Array.of(0, 0x61, 0x73, 0x6d, 1, 0, 0, 0, 5, 3, 1, 4, 0);
const NO_MEMORY = 2;

export class Unplayed extends Error {}

// Why no script can be played here, or null.
export function whyNot() {
    if (typeof WebAssembly !== 'object') return 'This browser has no WebAssembly.';
    if (!WebAssembly.validate(PROBE)) {
        return 'This browser has no 64-bit WebAssembly memories (Memory64), which the simulator needs. Chrome has them from 133 on and Firefox from ' +
            '134 on; in a terminal, ./lan and ./flow play and draw the same scripts.';
    }
    return null;
}

export class Simulator {
    constructor(module) {
        this.module = module;
    }

    static async of(bytes) {
        return new Simulator(await WebAssembly.compile(bytes));
    }

    // What the simulator answers to a script, and the status: 0, or 1 where a line ended it. Each script has a memory of its own.
    async play(script) {
        const {exports} = await WebAssembly.instantiate(this.module, {});
        const given = new TextEncoder().encode(script), count = this.room(exports, 8);
        const text = this.room(exports, given.length);
        new Uint8Array(exports.memory.buffer).set(given, Number(text));
        for (let size = 65536 + 64 * given.length; ;) {
            const answers = this.room(exports, size);
            const status = this.call(() => exports.sim_page_play(text, BigInt(given.length), answers, BigInt(size), count));
            if (status === NO_MEMORY) throw new Unplayed('The simulator found no memory.');
            const length = Number(new DataView(exports.memory.buffer).getBigUint64(Number(count), true));
            if (length <= size) {
                const bytes = new Uint8Array(exports.memory.buffer, Number(answers), length);
                return {answers: new TextDecoder().decode(bytes), status};
            }
            exports.free(answers);
            size = length;
        }
    }

    room(exports, size) {
        const at = this.call(() => exports.malloc(BigInt(Math.max(size, 1))));
        if (at === 0n) throw new Unplayed('There is no memory for the script and its answers.');
        return at;
    }

    // A trap is a fault of the module: a check of the unproved build, or the end of its stack.
    call(what) {
        try {
            return what();
        } catch (error) {
            if (error instanceof WebAssembly.RuntimeError || error instanceof RangeError) throw new Unplayed(`The simulator stopped: ${error.message}`);
            throw error;
        }
    }
}
