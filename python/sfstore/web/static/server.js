// The calls of the server, and what it tells.

// How long after a loss of the connection it is tried again.
const AGAIN_MILLISECONDS = 2_000;

// Sent in a header, which a browser adds to nothing by itself: no other page can send it.
let key = "";

// The number of the store that the page shows: a call of another one is refused.
let over;

/** Has every further call be meant for a store, but for those that name one themselves. */
export function speakOver(store) {
  over = store;
}

/** Has every further call speak for the person whose key this is, and gives the key before. */
export function speakFor(given) {
  const before = key;
  key = given;
  return before;
}

/** A call that was not carried out. The message is for people. */
export class CallFailed extends Error {
  constructor(message, status = 0) {
    super(message);
    this.status = status;
  }
}

/** Has the server carry out a call, and gives its answer. */
export async function call(path, body) {
  const response = await asked(path, { method: "POST", body: JSON.stringify({ store: over, ...body }) });
  let answer;
  try {
    answer = await response.json();
  } catch {
    throw silent();
  }
  if (!response.ok) throw new CallFailed(answer.error, response.status);
  return answer;
}

async function asked(path, words) {
  const headers = { Authorization: `Bearer ${key}`, "Content-Type": "application/json" };
  try {
    return await fetch(path, { headers, cache: "no-store", ...words });
  } catch {
    throw silent();
  }
}

const silent = () => new CallFailed("The server does not answer. Is sfstore-web still running?");

/** Hears what the server tells all pages, again and again where the connection is lost. */
export async function listen(onEvent, onLost) {
  for (;;) {
    try {
      await hear(onEvent);
    } catch {
      // Whatever it was: the connection is lost.
    }
    onLost();
    await new Promise((done) => setTimeout(done, AGAIN_MILLISECONDS));
  }
}

/** Hears until the connection ends. An EventSource could not send the key. */
async function hear(onEvent) {
  const response = await asked("events", {});
  if (!response.ok) return;
  const reader = response.body.pipeThrough(new TextDecoderStream()).getReader();
  let rest = "";
  for (;;) {
    const { value, done } = await reader.read();
    if (done) return;
    const lines = (rest + value).split("\n");
    rest = lines.pop();
    for (const line of lines) if (line.startsWith("data: ")) onEvent(JSON.parse(line.slice(6)));
  }
}
