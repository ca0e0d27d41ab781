// Exact fractions, as pairs of whole numbers, and how they are shown.
const gcd = (a, b) => { while (b) [a, b] = [b, a % b]; return a < 0n ? -a : a; };
function fraction(words) {
  const [a, b] = String(words).split('/');
  return [BigInt(a), b === undefined ? 1n : BigInt(b)];
}
function shown([a, b]) {
  const common = gcd(a, b) || 1n;
  return b === common ? `${a / common}` : `${a / common}/${b / common}`;
}
// Near enough for a picture, of however many digits.
function near([a, b]) {
  const shift = BigInt(Math.max(0, Math.max(a.toString(2).length, b.toString(2).length) - 900));
  return Number(a >> shift) / Number(b >> shift) || Number((a << 60n) / b) / 2 ** 60;
}
const nearOf = words => near(fraction(words));
function percent(value) {
  const part = near(value) * 100;
  return `${part === 0 || part === 100 ? part : part < 0.05 ? '<0.1' : part.toFixed(1)} %`;
}

// A line of the program. A number of 16 digits or more is put into quotes first, so that none of them is lost.
const readLine = line => JSON.parse(line.replace(/([[,:])(-?\d{16,})(?=[,\]}])/g, '$1"$2"'));
