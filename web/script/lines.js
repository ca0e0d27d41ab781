// What the lines of the program mean, in the words that tools/explain has too.
const WORDS = JSON.parse($('words').textContent);

const put = (words, fields) => words.replace(/\{(\w+)\}/g, (_, key) => fields[key]);
const said = (group, key, fields = {}) => put(WORDS[group][key], { fair: WORDS.outcomes.fair, ...fields });

function meaning(line) {
  if (line.refused === 'Overflow') return said('overflow', 'query' in line ? 'query' : 'goal', line);
  return line.refused in WORDS.refusals ? said('refusals', line.refused, line) : line.refused;
}
const ending = outcome => 'query' in outcome
  ? said('endings', 'stuck', { ...outcome, side: WORDS.sides[outcome.side] })
  : said('endings', 'envy', outcome);
const queryWords = asked => said('queries', asked.kind, asked) + ('part' in asked ? said('queries', 'part', asked) : '');
const envyWords = (line, [a, b]) =>
  said('outcomes', 'envy', { agent: a, envies: b, other: line.values[a - 1][b - 1], own: line.values[a - 1][a - 1] });

// The unknowns of rows over so many parts of the cake for each agent: the whole, or what a part is worth to an agent.
function unknown(at, parts) {
  if (at === 0) return 'whole';
  return parts ? `a${Math.floor((at - 1) / parts) + 1}.${(at - 1) % parts}` : `x${at}`;
}
function rowWords(row, parts) {
  let sum = '';
  row.coefs.forEach((coef, at) => {
    if (coef === '0') return;
    const size = coef.replace('-', '');
    sum += ` ${coef[0] === '-' ? '-' : sum ? '+' : ''} ${size === '1' ? '' : size + ' '}${unknown(at, parts)}`;
  });
  return `${sum.trim().replace(/\s+/g, ' ') || '0'} ${WORDS.rows[row.kind]}`;
}
