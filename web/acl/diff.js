// The lines in which two texts differ.

// For every pair of suffixes of both texts, the length of their longest common subsequence.
function commonLengths(before, after) {
  const row = () => new Uint16Array(after.length + 1);
  const lengths = Array.from({ length: before.length + 1 }, row);
  for (let i = before.length - 1; i >= 0; i -= 1) {
    for (let j = after.length - 1; j >= 0; j -= 1) {
      lengths[i][j] = before[i] === after[j]
        ? lengths[i + 1][j + 1] + 1
        : Math.max(lengths[i + 1][j], lengths[i][j + 1]);
    }
  }
  return lengths;
}

function middle(before, after) {
  const lengths = commonLengths(before, after);
  const changes = [];
  let [i, j] = [0, 0];
  while (i < before.length || j < after.length) {
    if (i < before.length && j < after.length && before[i] === after[j]) {
      changes.push({ sign: ' ', line: before[i] });
      i += 1;
      j += 1;
    } else if (j === after.length
      || (i < before.length && lengths[i + 1][j] >= lengths[i][j + 1])) {
      changes.push({ sign: '-', line: before[i] });
      i += 1;
    } else {
      changes.push({ sign: '+', line: after[j] });
      j += 1;
    }
  }
  return changes;
}

const same = (line) => ({ sign: ' ', line });

// [{sign: ' ', '-' or '+', line}]. What is equal at both ends is set aside first, so that long
// lists are quick.
export function changedLines(before, after) {
  const shorter = Math.min(before.length, after.length);
  let head = 0;
  while (head < shorter && before[head] === after[head]) head += 1;
  let tail = 0;
  while (tail < shorter - head && before.at(-1 - tail) === after.at(-1 - tail)) tail += 1;
  return [
    ...before.slice(0, head).map(same),
    ...middle(before.slice(head, before.length - tail), after.slice(head, after.length - tail)),
    ...before.slice(before.length - tail).map(same),
  ];
}
