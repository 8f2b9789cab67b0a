// A question with several answers, which waits until one is chosen; Escape chooses the last. The focus is on the first,
// or on the last where the others take something away.
import { at, make } from "./dom.js";

/** @type {Promise<any>} */
let waiting = Promise.resolve();

function put(words, answers, isCareful) {
  const box = at("question"), isOpen = answers.length > 0;
  at("question-words").textContent = words;
  return new Promise(tell => {
    const end = answer => {
      box.onclose = null;
      box.close();
      tell(answer);
    };
    at("question-answers").replaceChildren(...answers.map(([name, answer], nth) => {
      const made = make("button", name, { type: "button", autofocus: nth === (isCareful ? answers.length - 1 : 0) });
      made.onclick = () => end(answer);
      return made;
    }));
    box.onclose = () => tell(answers.at(-1)[1]);
    if (isOpen) box.showModal();
  });
}

// One question after another.
/** @returns {Promise<any>} what stands with the answer that is chosen */
export function question(words, answers, isCareful = false) {
  waiting = waiting.then(() => put(words, answers, isCareful));
  return waiting;
}
