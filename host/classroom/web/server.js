// What the page asks of its server, which has no memory: whatever a tap needs goes with it.

// An answer that says what is wrong becomes an error with these words.
async function answered(response) {
  if (response.ok) return response;
  const said = await response.text();
  let words = said;
  try {
    words = JSON.parse(said).wrong ?? said;
  } catch {}
  throw new Error(words || `the server answered ${response.status}`);
}

const unreachable = () => {
  throw new Error("the server does not answer: is ./classroom still running?");
};

export async function ask(path, given) {
  const how = given === undefined ? {} : { method: "POST", body: JSON.stringify(given) };
  return (await answered(await fetch(path, how).catch(unreachable))).json();
}

// The objects of an answer that has one a line, each handed over as it comes. `piece` is called when some have come.
export async function told(path, recording, take, piece = () => {}) {
  const how = recording === undefined ? {} : { method: "POST", body: recording };
  const reader = (await answered(await fetch(path, how).catch(unreachable))).body.pipeThrough(new TextDecoderStream()).getReader();
  let rest = "";
  for (let read; !(read = await reader.read()).done;) {
    const lines = (rest + read.value).split("\n");
    rest = lines.pop();
    lines.forEach((line) => take(JSON.parse(line)));
    if (lines.length) piece();
  }
}
