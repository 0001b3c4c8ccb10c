// Requests that are sent again while the room doesn't answer, as while it is restarted.

const HALF_A_MINUTE = 30000;
const FIRST_PAUSE = 250;
const LONGEST_PAUSE = 2000;

// The front end has no answer of the room, or there is none at all.
export const isUnanswered = ({ status }) => status === 0 || status === 502 || status === 504;

// After these faults others would only fail in the same way. (Where a room has place for less than
// one document has, another one may have its place.)
export const endsAll = (fault) => isUnanswered(fault) || [401, 429, 503].includes(fault.status)
  || (fault.status === 507 && fault.body?.left === undefined);

// Whether the same may succeed later, without anybody's doing.
export const mayHelpAgain = (fault) =>
  isUnanswered(fault) || [429, 500, 503].includes(fault.status);

let interruptions = 0;
let waiting = 0;
/** @type {(isWaiting: boolean) => void} */
let onChange = () => {};

// How often a request wasn't answered since the page was loaded.
export const interruptionsSeen = () => interruptions;

// 'tell' is called with whether the page waits for an answer that it asked for before.
export function whenWaiting(tell) {
  onChange = tell;
}

const pause = (time) => new Promise((resolve) => { setTimeout(resolve, time); });

async function repeat(send, fault) {
  const end = Date.now() + HALF_A_MINUTE;
  let last = fault;
  for (let time = FIRST_PAUSE; Date.now() < end; time = Math.min(2 * time, LONGEST_PAUSE)) {
    await pause(time);
    try {
      return await send();
    } catch (next) {
      last = Object.assign(next, { repeated: true });
      if (!isUnanswered(next)) break;
    }
  }
  throw last;
}

// Sends until there is an answer, for half a minute. A fault after that says that it was
// 'repeated': the room may have carried out an earlier one. So only what may come twice may be sent
// by this.
export async function untilAnswered(send) {
  try {
    return await send();
  } catch (fault) {
    if (!isUnanswered(fault)) throw fault;
    interruptions += 1;
    waiting += 1;
    onChange(true);
    try {
      return await repeat(send, fault);
    } finally {
      waiting -= 1;
      onChange(waiting > 0);
    }
  }
}
