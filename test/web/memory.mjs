// node --expose-gc test/web/memory.mjs [COUNT]: decodes, reads and encodes messages this many times, and looks whether the memory grows.
// Prints 'N passed, M failed'.
import { NdefError, decode, encode, explain } from "../../out/web/index.js";
import { randomMessage } from "./random.mjs";
import { finish, test } from "./tests.mjs";

const most = Number(process.argv[2] ?? 1000000), EVERY = 1000, SLACK = 8 << 20;
const messages = Array.from({ length: 500 }, randomMessage);

// Decodes a message, reads what each record holds, and at times more.
function use(bytes, round) {
    try {
        const message = decode(bytes), [first] = message.records;
        if (round % EVERY === 0) return [encode(message), first.value, explain(bytes)];
        return first.recordType;
    } catch (error) {
        if (error instanceof NdefError) return error.place;
        throw error;
    }
}

// The bytes in use after this many rounds.
function after(rounds) {
    for (let round = 0; round < rounds; round++) use(messages[round % messages.length], round);
    globalThis.gc();
    const { heapUsed, arrayBuffers, external } = process.memoryUsage();
    return heapUsed + arrayBuffers + external;
}

await test(`the memory stays the same over ${most} messages`, () => {
    const before = after(most / 20), now = after(most);
    console.log(`bytes after ${most / 20} messages ${before}, after ${most} more ${now}`);
    return now < before + SLACK;
});
finish();
