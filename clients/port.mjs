// Runs a C program that was compiled to WebAssembly with 64-bit memory: node port.mjs PROGRAM [WORD..]. The program's main gets the words; of the C
// library it has printf, with what compilers make of it, and getchar, which stand here. `node port.mjs --can` ends with status 0 where this node has such memories.
import fs from 'node:fs';

const [program, ...words] = process.argv.slice(2);

if (program === '--can') {
    // The smallest module with one 64-bit memory of no pages.
    const smallest = new Uint8Array([0, 0x61, 0x73, 0x6d, 1, 0, 0, 0, 5, 3, 1, 4, 0]);
    process.exit(WebAssembly.validate(smallest) ? 0 : 1);
}

let memory;
let written = [];
const input = words.length === 0 || !process.stdin.isTTY ? fs.readFileSync(0) : Buffer.alloc(0);
let read = 0;

const view = () => new DataView(memory.buffer);

function text(at) {
    const bytes = new Uint8Array(memory.buffer);
    let end = Number(at);
    while (bytes[end] !== 0) end++;
    return Buffer.from(bytes.subarray(Number(at), end)).toString('latin1');
}

// The arguments of a variadic call lie in memory one behind the other, each aligned as its size asks.
class Arguments {
    constructor(at) {
        this.at = Number(at);
    }
    take(size) {
        this.at = Math.ceil(this.at / size) * size + size;
        return this.at - size;
    }
    number(long, signed) {
        if (long) return signed ? view().getBigInt64(this.take(8), true) : view().getBigUint64(this.take(8), true);
        return signed ? view().getInt32(this.take(4), true) : view().getUint32(this.take(4), true);
    }
}

function formatted(format, args) {
    return format.replace(/%(-?)(0?)(\d*)(?:\.(\d+))?(ll|l|z)?([dusxfc%])/g, (_, left, zero, width, digits, long, kind) => {
        const said =
            kind === '%' ? '%'
            : kind === 's' ? text(view().getBigUint64(args.take(8), true))
            : kind === 'f' ? view().getFloat64(args.take(8), true).toFixed(digits === undefined ? 6 : Number(digits))
            : kind === 'x' ? args.number(long, false).toString(16)
            : kind === 'c' ? String.fromCharCode(args.number(false, false))
            : args.number(long, kind === 'd').toString();
        return left ? said.padEnd(Number(width)) : said.padStart(Number(width), zero ? '0' : ' ');
    });
}

function flush() {
    if (written.length > 0) fs.writeSync(1, Buffer.from(written.join(''), 'latin1'));
    written = [];
}

function put(said) {
    if (written.push(said) > 4096) flush();
    return said.length;
}

// The compiler makes puts and putchar of a printf that has no more to do.
const env = {
    printf(format, args) {
        return put(formatted(text(format), new Arguments(args)));
    },
    puts(line) {
        return put(text(line) + '\n');
    },
    putchar(c) {
        return put(String.fromCharCode(c & 255)), c & 255;
    },
    getchar() {
        return read < input.length ? input[read++] : -1;
    },
};

// The program without its table of functions, where nothing is in it: node 20 knows memories of 64 bits and no tables of 64 bits.
function withoutEmptyTable(bytes) {
    const sections = [];
    for (let at = 8; at < bytes.length;) {
        let size = 0, i = at + 1, shift = 0;
        do size |= (bytes[i] & 127) << shift, (shift += 7); while (bytes[i++] & 128);
        sections.push({ id: bytes[at], bytes: bytes.subarray(at, i + size) });
        at = i + size;
    }
    const kept = sections.some(({ id }) => id === 9) ? sections : sections.filter(({ id }) => id !== 4);
    return Buffer.concat([bytes.subarray(0, 8), ...kept.map((section) => section.bytes)]);
}

const { instance } = await WebAssembly.instantiate(withoutEmptyTable(fs.readFileSync(program)), { env });
memory = instance.exports.memory;

// The words of the program lie where nothing else does, above its own memory.
const page = BigInt(memory.buffer.byteLength);
try {
    memory.grow(1n);
} catch {
    memory.grow(1);
}
const argv = ['program', ...words];
let place = Number(page) + 8 * (argv.length + 1);
argv.forEach((word, i) => {
    view().setBigUint64(Number(page) + 8 * i, BigInt(place), true);
    new Uint8Array(memory.buffer).set(Buffer.from(word + '\0', 'latin1'), place);
    place += word.length + 1;
});
const { __main_argc_argv: main, __main_void: alone, main: plain } = instance.exports;
const status = main ? main(argv.length, page) : (alone ?? plain)();
flush();
process.exitCode = status;
