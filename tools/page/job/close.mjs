// The name that a word was perhaps meant to be, as difflib of Python finds it: by the share of letters that the two have in common.

// The longest piece that both have, the earliest of these: where it begins in each, and its length.
function longestPiece(one, other) {
    let best = [0, 0, 0];
    for (let i = 0; i < one.length; i++) {
        for (let k = 0; k < other.length; k++) {
            let length = 0;
            while (i + length < one.length && k + length < other.length && one[i + length] === other[k + length]) length++;
            if (length > best[2]) best = [i, k, length];
        }
    }
    return best;
}

// How many letters the two have in common: the longest piece, then what is left of it and what is right of it.
function commonLetters(one, other) {
    const [i, k, length] = longestPiece(one, other);
    if (!length) return 0;
    return length + commonLetters(one.slice(0, i), other.slice(0, k)) + commonLetters(one.slice(i + length), other.slice(k + length));
}

// The closest of the names, if it is as close as asked; null otherwise.
export function closest(word, names, least) {
    let best = null;
    for (const name of names) {
        const share = (2 * commonLetters(name, word)) / (name.length + word.length || 1);
        if (share >= least && (best === null || share > best.share || (share === best.share && name > best.name))) best = { share, name };
    }
    return best && best.name;
}
