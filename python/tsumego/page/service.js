// Requests to the service. What goes wrong is an Error in words; a request that is stopped throws nothing that is shown.

const WORDS = {
  400: "The service can't read this request.", 413: "This text is too long for the service.", 500: "The program failed.",
  503: "The service is busy: many ask at the moment. Try again in a little while.",
  504: "The seconds that this service gives weren't enough. Try fewer squares, or make a move and ask there.",
};
const MOST_TRIES = 3;
const pause = (seconds) => new Promise((done) => setTimeout(done, seconds * 1000));

// Sends a text, and returns the last line of the answer as data. `told` takes each line as it comes.
export async function post(path, text, signal, told = () => {}) {
  for (let tries = 1; ; tries += 1) {
    let answer;
    try {
      answer = await fetch(path, { method: "POST", body: text, signal, headers: { Accept: "application/json" } });
    } catch (fault) {
      if (fault.name === "AbortError") throw fault;
      throw new Error("The service can't be reached. Nothing is lost: try again when it is back.");
    }
    if (answer.status === 503 && tries < MOST_TRIES) await pause(Math.min(10, Number(answer.headers.get("Retry-After")) || 2));
    else if (answer.ok) return lines(answer, told);
    else throw new Error(WORDS[answer.status] || `The service refuses this with status ${answer.status}.`);
  }
}

async function lines(answer, told) {
  const reader = answer.body.getReader();
  const decoder = new TextDecoder();
  let [rest, last] = ["", null];
  for (;;) {
    const { done, value } = await reader.read().catch((fault) => {
      throw fault.name === "AbortError" ? fault : new Error("The connection broke off. Nothing is lost: try again.");
    });
    const parts = (rest + decoder.decode(value, { stream: !done })).split("\n");
    rest = parts.pop();
    for (const line of parts) {
      last = JSON.parse(line);
      if (last.event === "failed") throw new Error(WORDS[last.status] || "The program failed.");
      told(last);
    }
    if (done) break;
  }
  if (!last) throw new Error("The service gave no answer. Try again.");
  return last;
}
