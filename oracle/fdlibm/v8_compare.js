// Compares a dump of our answers, read from standard input, with V8's Math.acosh or Math.asinh, which follow fdlibm's C too, bit for bit with NaN matching NaN.
const fs = require("fs");

const name = process.argv[2];
const theirs = { acosh: Math.acosh, asinh: Math.asinh }[name];
const dump = fs.readFileSync(0);
let differences = 0;
for (let at = 0; at < dump.length; at += 16) {
    const input = dump.readDoubleBE(at);
    const ours = dump.readDoubleBE(at + 8);
    // Object.is tells -0 from 0, and takes every NaN for the same.
    if (!Object.is(ours, theirs(input)) && differences++ < 5) {
        console.log(`${name}: input ${dump.toString("hex", at, at + 8)}, ours ${ours}, V8 ${theirs(input)}`);
    }
}
console.log(`${name}: ${dump.length / 16} inputs compared with V8 ${process.versions.v8}, ${differences} differences`);
process.exit(dump.length > 0 && differences === 0 ? 0 : 1);
