// Exact fractions of whole numbers, as `n` by `d`, in lowest terms.
/** @type {(a: bigint, b: bigint) => bigint} */
const gcd = (a, b) => {
  while (b) [a, b] = [b, a % b];
  return a;
};

/**
 * @param {bigint} n
 * @returns {Fraction}
 */
export function fraction(n, d = 1n) {
  const by = gcd(n < 0n ? -n : n, d) || 1n;
  return { n: n / by, d: d / by };
}

// The whole number below a quotient, also of negative ones.
/** @type {(n: bigint, d: bigint) => bigint} */
export function floorOf(n, d) {
  const whole = n / d;
  return n % d < 0n ? whole - 1n : whole;
}

const DECIMAL = /^\s*([+-]?)(\d*)(?:\.(\d*))?(?:[eE]([+-]?\d+))?\s*$/, QUOTIENT = /^\s*([+-]?\d+)\/(\d+)\s*$/;
// Nobody means a number that is longer, or greater.
const MOST_LENGTH = 400, MOST_VALUE = 10n ** 30n, LARGE_POWER = /[eE][+-]?0*[1-9]\d\d/;

// The number that a text writes with digits, a point and an exponent, or as two whole numbers with a stroke; null where
// it is none, or out of range.
export function fractionOf(text) {
  if (text.length > MOST_LENGTH || LARGE_POWER.test(text)) return null;
  const plain = text.replace(/(?<=\d)_(?=\d)/g, ""), value = quotientOf(plain) ?? decimalOf(plain);
  return value && (value.n < 0n ? -value.n : value.n) <= MOST_VALUE * value.d ? value : null;
}

function quotientOf(text) {
  const found = QUOTIENT.exec(text);
  return found && BigInt(found[2]) ? fraction(BigInt(found[1].replace(/^\+/, "")), BigInt(found[2])) : null;
}

function decimalOf(text) {
  const found = DECIMAL.exec(text);
  if (!found || !(found[2] || found[3])) return null;
  const [, sign, whole, part = "", power = "0"] = found, digits = BigInt(`${whole}${part}`),
    n = sign === "-" ? -digits : digits, up = BigInt(power) - BigInt(part.length);
  return up >= 0n ? fraction(n * 10n ** up) : fraction(n, 10n ** -up);
}

/** @typedef {(a: Fraction, b: Fraction) => Fraction} Operation */
/** @type {Operation} */
export const times = (a, b) => fraction(a.n * b.n, a.d * b.d);
/** @type {Operation} */
export const over = (a, b) => fraction(a.n * b.d, a.d * b.n);
/** @type {Operation} */
export const plus = (a, b) => fraction(a.n * b.d + b.n * a.d, a.d * b.d);
export const isLess = (a, b) => a.n * b.d < b.n * a.d;
/** @type {Operation} */
export const less = (a, b) => (isLess(b, a) ? b : a);
/** @type {(n: bigint, d: bigint) => bigint} */
export const ceilOf = (n, d) => -floorOf(-n, d);
export const floor = a => floorOf(a.n, a.d);
export const ceil = a => ceilOf(a.n, a.d);
