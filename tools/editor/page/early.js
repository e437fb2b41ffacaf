// The first that a page does: it asks to join while its other scripts are still on their way.

let tab = takeId();
let first = askToJoin();
// (who waits for it is told that it failed)
first.catch(() => {});

addEventListener("pagehide", () => sessionStorage.setItem("tab", tab));
addEventListener("pageshow", (event) => {
  if (event.persisted) tab = takeId();
});

// The id by which a tab has its session again when it is loaded anew. It is kept only while no page of the tab runs: a
// copy of the tab finds none, and so isn't taken for it.
function takeId() {
  const kept = sessionStorage.getItem("tab");
  sessionStorage.removeItem("tab");
  return kept ?? crypto.getRandomValues(new Uint32Array(4)).join("-");
}

export async function postForText(path, body) {
  const answer = await fetch(path, { method: "POST", body: JSON.stringify(body) });
  const text = await answer.text();
  if (!answer.ok) throw new Error(text.trim() || `status ${answer.status}`);
  return text;
}

// Asks as the session that this tab was before: a server that was begun anew knows no id.
function askToJoin() {
  const before = sessionStorage.getItem("session");
  return postForText("join", before === null ? { tab } : { tab, session: Number(before) });
}

// The answer to a join, at first to the one that was asked for at once.
export function joined() {
  const answer = first ?? askToJoin();
  first = null;
  return answer;
}
