// So many requests of a kind at once. nginx refuses a user's seventeenth listing, or request to the
// door or for a night (docs/operating.md); by HTTP/2 a browser sends a hundred, and there may be
// two tabs.

const AT_ONCE = 8;

// Of each kind, by the first name of its address: how many wait for an answer, and which for them.
const lanes = new Map();

function laneOf(where) {
  const [kind] = where.split('/', 1);
  if (!lanes.has(kind)) lanes.set(kind, { running: 0, waiting: [] });
  return lanes.get(kind);
}

export async function paced(where, send) {
  const lane = laneOf(where);
  if (lane.running < AT_ONCE) lane.running += 1;
  else await new Promise((resolve) => { lane.waiting.push(resolve); });
  try {
    return await send();
  } finally {
    // The next one has its place.
    const next = lane.waiting.shift();
    if (next) next();
    else lane.running -= 1;
  }
}
