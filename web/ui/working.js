// Work of several steps that is going on: who leaves the page in the middle of it is asked first.

let works = 0;

export const isWorking = () => works > 0;

// Waits for the work, which counts as going on until then.
export async function asWork(work) {
  works += 1;
  try {
    return await work;
  } finally {
    works -= 1;
  }
}
