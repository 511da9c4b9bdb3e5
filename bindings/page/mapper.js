/** Maps refs by refspecs, in a worker: a million refs take a second, in which the page goes on. */
const encoder = new TextEncoder();
// The first messages come before the library is loaded, and only a listener that is there from the
// start receives them.
const library = import("../js/gixp.js");
const names = [];

/** Texts as bytes one after another, and the offsets at which they end. */
function packed(texts) {
  const whole = encoder.encode(texts.join("\n")), ends = new Uint32Array(texts.length);
  for (let n = 0, at = 0; n < texts.length; n += 1) {
    at = whole.indexOf(10, at);
    if (at < 0) at = whole.length;
    ends[n] = at;
    at += 1;
  }
  return { whole, ends };
}

function mapped(map, specs) {
  const { mappings, removed, conflicts } = map(names, specs);
  const locals = packed(mappings.map((one) => one.local ?? ""));
  const items = Int32Array.from(mappings, (one) => one.item ?? -1);
  const numbers = Int32Array.from(mappings, (one) => one.spec);
  return { items, numbers, locals, removed, conflicts };
}

addEventListener("message", async ({ data }) => {
  if (data.names) names.push(...data.names.split("\n"));
  if (!data.specs) return;
  try {
    const { map } = await library;
    postMessage({ turn: data.turn, found: mapped(map, data.specs) });
  } catch (e) {
    postMessage({ turn: data.turn, error: e.message });
  }
});
