// Calls of WebAssembly by numbers.

// A number as a BigInt. The small ones, which most lengths and places are, are made once.
const WIDE = Array.from({ length: 4096 }, (_, number) => BigInt(number));
export const wide = (number) => WIDE[number] ?? BigInt(number);
const asItIs = (number) => number;

// A call that takes numbers for the lengths and places that it wants as BigInts; `types` are those of its parameters. An engine calls a function
// with parameters faster than one with a list of them.
export function taking(call, types) {
    const kinds = types.split(" "), [a, b, c, d, e, f, g, h] = Array.from({ length: 8 }, (_, index) => (kinds[index] === "i64" ? wide : asItIs));
    if (kinds.length <= 4) return (one, two, three, four) => call(a(one), b(two), c(three), d(four));
    if (kinds.length <= 8)
        return (one, two, three, four, five, six, seven, eight) => call(a(one), b(two), c(three), d(four), e(five), f(six), g(seven), h(eight));
    const places = kinds.flatMap((type, index) => (type === "i64" ? [index] : []));
    return (...given) => {
        for (const index of places) given[index] = wide(given[index]);
        return call(...given);
    };
}
