// Words for people, one source of them: each format stands in a module of tools/dustsheet, word for word, and the build refuses one that
// doesn't. Constants come from there by TABLES.

// A format of Python's, filled in: %s a word, %d a number, %% a percent sign.
export function said(format, ...values) {
    let place = 0;
    return format.replace(/%[sd%]/g, (sign) => (sign === "%%" ? "%" : String(values[place++])));
}

export function sentence(words) {
    return words.slice(0, 1).toUpperCase() + words.slice(1) + ".";
}

// "1 step", "2 steps".
export function counted(number, thing) {
    return number === 1 ? `1 ${thing}` : `${number} ${thing}s`;
}
