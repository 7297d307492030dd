// node test/web/stream.mjs: the stream of the package: messages one after another, in parts of each length, and what a refused byte leaves.
// Prints 'N passed, M failed'.
import { NDEFDecoderStream, NdefError, encode } from "../../out/web/index.js";
import { bytesOf, finish, hexOf, same, test, throws } from "./tests.mjs";

// Bytes as a stream of parts of these lengths, the last one with what is left.
function streamOf(bytes, length) {
    let at = 0;
    return new ReadableStream({
        pull(controller) {
            if (at >= bytes.length) return controller.close();
            const end = at + length();
            controller.enqueue(bytes.slice(at, end));
            at = end;
        },
    });
}

// What a stream of messages gives, each as its bytes, and the refusal at its end.
async function readAll(stream, options) {
    const digits = [], reader = stream.getReader();
    try {
        for (;;) {
            const { done, value } = await reader.read();
            if (done) return digits;
            digits.push(hexOf(encode(value, options)));
        }
    } catch (error) {
        if (!(error instanceof NdefError)) throw error;
        return [...digits, [error.place, error.reason]];
    }
}

const read = (bytes, options, length = () => bytes.length) => readAll(streamOf(bytes, length).pipeThrough(new NDEFDecoderStream(options)), options);
const joined = (...parts) => Uint8Array.from(parts.flatMap((part) => [...part]));
const EMPTY = bytesOf("D00000"), TEXT = bytesOf("D101085402656E48656C6C6F");

await test("each length of parts", async () => {
    const bytes = joined(TEXT, EMPTY, EMPTY, bytesOf("B10101540056000178"), TEXT, bytesOf("D70000"));
    const wanted = [hexOf(TEXT), "d00000", "d00000", "d10102540078", hexOf(TEXT), [39, 1]];
    for (let length = 1; length <= bytes.length; length++) same(await read(bytes, {}, () => length), wanted);
});
await test("many messages in one part", async () => same((await read(joined(...Array(20000).fill(EMPTY)))).length, 20000));
await test("no bytes are no message", async () => same([await read(new Uint8Array()), await read(joined(EMPTY))], [[], ["d00000"]]));
await test("a message that goes on is refused at the end", async () => {
    same(await read(joined(EMPTY, TEXT.subarray(0, 5))), ["d00000", [8, 24]]);
    same(await read(joined(EMPTY, TEXT.subarray(0, 5)), {}, () => 1), ["d00000", [8, 24]]);
});
await test("nothing is read after a refused byte, and writing fails", async () => {
    const stream = new NDEFDecoderStream(), writer = stream.writable.getWriter(), reader = stream.readable.getReader();
    const writing = writer.write(joined(EMPTY, EMPTY, bytesOf("D70000")));
    same([(await reader.read()).value.records.length, (await reader.read()).value.records.length], [1, 1]);
    for (let times = 0; times < 2; times++) await reader.read().then(() => { throw new Error("read"); }, (error) => same([error.place, error.name], [6, "ReservedTnf"]));
    await writing;
    await writer.write(EMPTY).then(() => { throw new Error("written"); }, (error) => same([error instanceof NdefError, error.place], [true, 6]));
});
await test("a reader that goes away ends the writing", async () => {
    const stream = new NDEFDecoderStream(), writer = stream.writable.getWriter();
    await stream.readable.cancel(new Error("enough"));
    await writer.write(EMPTY).then(() => { throw new Error("written"); }, (error) => same(error.message, "enough"));
});
await test("what a part is, and what options are", async () => {
    for (const part of ["d00000", [0xd0, 0, 0], null]) {
        const stream = new NDEFDecoderStream(), writer = stream.writable.getWriter();
        writer.write(part).catch(() => {});
        await stream.readable.getReader().read().then(() => { throw new Error("read"); }, (error) => same(error.constructor.name, "TypeError"));
    }
    throws(RangeError, () => new NDEFDecoderStream({ records: 0 }));
    throws(TypeError, () => new NDEFDecoderStream(null));
});
await test("parts of any shape are copied", async () => {
    const stream = new NDEFDecoderStream(), writer = stream.writable.getWriter(), part = TEXT.slice(0, 6), reading = readAll(stream.readable);
    await writer.write(part.buffer);
    part.fill(0);
    await writer.write(new DataView(joined([9], TEXT.subarray(6)).buffer, 1));
    await writer.close();
    same(await reading, [hexOf(TEXT)]);
});
finish();
