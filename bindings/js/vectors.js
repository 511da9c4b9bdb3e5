/** Compares the module with test vectors, in Node and in a page. */

const decoder = new TextDecoder();
const bytesOf = (text) => Uint8Array.from(atob(text), (c) => c.charCodeAt(0));

/**
 * What a call yields for these bytes: the refs up to an error, the error's number and the server's
 * words.
 */
function readAll(call, data) {
  const found = [];
  try {
    for (const ref of call(data)) found.push([ref.name, ref.id, ref.peeled, ref.target]);
  } catch (e) {
    return [e.code, decoder.decode(e.words ?? new Uint8Array(0)), found];
  }
  return [0, "", found];
}

/**
 * How a call differs from what a test vector expects, or null. After an error only its number and
 * words count.
 */
function difference(name, [code, words, found], [expected, text, refs]) {
  const ours = JSON.stringify([code, words, code === 0 ? found : []]);
  const wanted = JSON.stringify([expected, text, code === 0 ? refs : []]);
  return ours === wanted ? null : `${name}: ${ours}, and not ${wanted}`;
}

function mapped(gixp, { names, specs }) {
  const { mappings, removed, conflicts } = gixp.map(names, specs);
  const pairs = mappings.map((one) => [one.item, one.local]);
  return JSON.stringify([pairs, removed, conflicts, [...new Set(gixp.prefixes(specs))]]);
}

/** Runs all test vectors: how many there are, how often each number came, and what differs. */
export function checkVectors(gixp, { responses, maps }) {
  const codes = {}, wrong = [];
  for (const { name, data, refs, advertised } of responses) {
    const bytes = bytesOf(data);
    for (const [call, expected] of [[gixp.refs, refs], [gixp.advertised, advertised]]) {
      const found = readAll(call, bytes), other = difference(name, found, expected);
      codes[found[0]] = (codes[found[0]] ?? 0) + 1;
      if (other) wrong.push(other);
    }
  }
  for (const one of maps) {
    const ours = mapped(gixp, one), wanted = JSON.stringify(one.expected);
    if (ours !== wanted) wrong.push(`${one.name}: ${ours}, and not ${wanted}`);
  }
  return { count: responses.length, codes, wrong: wrong.slice(0, 10) };
}
