// The exports of an instance, each call watched: what it may write is filled with a pattern before it, and the whole heap is looked through after it. A refusal
// may change no byte; an answer the arrays of fixed size and the first part of each buffer, as long as the answer says it is.

// By call, what is lent: of an array of fixed size its argument and its bytes; of a buffer the arguments of pointer and length, the bytes of an element,
// and the array and the place in it where its written elements are counted; `both` are arrays that are read too, and so not filled. The events of a step are
// blank from the number of actions on.
const LENT = {
    check_image: { arrays: [], buffers: [] },
    body: { arrays: [[3, 16]], buffers: [] },
    validate: { arrays: [], buffers: [] },
    initial_state: { arrays: [[3, 8]], buffers: [[1, 2, 2, 3, 0]] },
    step: { arrays: [[7, 64], [8, 16]], buffers: [[5, 6, 2, 8, 0]], events: [7, 4] },
    take_move: { arrays: [], buffers: [], both: [[4, 64], [5, 152]] },
    places: { arrays: [[2, 64]], buffers: [] },
    struck: { arrays: [[5, 32]], buffers: [] },
    count: { arrays: [[2, 8]], buffers: [] },
    draw: { arrays: [[7, 16]], buffers: [[3, 4, 2, 7, 0], [5, 6, 2, 7, 1]] },
    rank: { arrays: [[4, 8]], buffers: [] },
    outcome_of: { arrays: [[2, 8]], buffers: [] },
    write_book: { arrays: [[6, 8]], buffers: [[4, 5, 2, 6, 0]] },
    page: { arrays: [[3, 16]], buffers: [] },
    observe: { arrays: [[5, 8]], buffers: [[3, 4, 4, 5, 0]] },
    observation_space: { arrays: [[1, 40], [2, 8]], buffers: [] },
    action_space: { arrays: [[0, 40], [1, 8]], buffers: [] },
    length_cell: { arrays: [[2, 16]], buffers: [] },
    actor: { arrays: [[2, 8]], buffers: [] },
    legal_actions: { arrays: [[3, 8]], buffers: [] },
    truncation: { arrays: [[4, 8]], buffers: [] },
    reward: { arrays: [[2, 8]], buffers: [] },
    relative_to_absolute: { arrays: [[2, 8]], buffers: [] },
};

// No image has the word of these two bytes.
const PATTERN = Buffer.from([0xa6, 0xa5]);

// `exports` for an Arena, and `kept()`: whether every call since it was last asked left alone what it must.
export function watched(real) {
    let kept = true;
    let before = Buffer.alloc(0);
    const heap = real.__heap_base.value;
    const memory = () => Buffer.from(real.memory.buffer);

    function call(f, { arrays, buffers, events, both = [] }, args) {
        const now = memory();
        const part = (pointer, bytes) => now.subarray(args[pointer], args[pointer] + bytes);
        for (const [pointer, bytes] of arrays) part(pointer, bytes).fill(PATTERN);
        for (const [pointer, length, size] of buffers) part(pointer, size * Number(args[length])).fill(PATTERN);
        if (before.length !== now.length) before = Buffer.alloc(now.length);
        now.copy(before, heap, heap);
        const returned = f(...args);
        if (returned === 0n) {
            const allow = (pointer, bytes) => now.copy(before, args[pointer], args[pointer], args[pointer] + bytes);
            for (const [pointer, bytes] of [...arrays, ...both]) allow(pointer, bytes);
            if (events) kept = kept && part(events[0], 64).subarray(8 * Number(args[events[1]])).every((byte) => byte === 0);
            for (const [pointer, , size, array, place] of buffers) allow(pointer, size * Number(now.readBigUInt64LE(args[array] + 8 * place)));
        }
        kept = kept && memory().length === now.length && before.compare(now, heap, now.length, heap, now.length) === 0;
        return returned;
    }

    const exports = { memory: real.memory, __heap_base: real.__heap_base };
    for (const [name, lent] of Object.entries(LENT)) {
        const f = real[`lundaspro_flat_${name}`];
        exports[`lundaspro_flat_${name}`] = (...args) => call(f, lent, args);
    }
    return {
        exports,
        kept() {
            const was = kept;
            kept = true;
            return was;
        },
    };
}
