// Asks for several things at once: what is wanted while an answer is on its way is asked for together, once that answer is there.

// A function that promises the answer to one line. `ask` promises the answers to several.
export function inBatches(ask) {
  let waiting = [], isAsking = false;
  const next = async () => {
    isAsking = true;
    while (waiting.length) {
      const batch = waiting;
      waiting = [];
      try {
        const answers = await ask(batch.map(({ line }) => line));
        batch.forEach(({ done }, i) => done(answers[i]));
      } catch (fault) {
        for (const { fail } of batch) fail(fault);
      }
    }
    isAsking = false;
  };
  return (line) => new Promise((done, fail) => {
    waiting.push({ line, done, fail });
    if (!isAsking) next();
  });
}
