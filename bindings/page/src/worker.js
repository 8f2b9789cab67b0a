// A worker with the library: it answers one question after another.
import { ASKS } from "./asks.js";
import { libraryOf } from "./library.js";

let library = null;

self.onmessage = ({ data: { nth, module, ask, texts, plan } }) => {
  if (module) library = libraryOf(module);
  else self.postMessage({ nth, answer: ASKS[ask](library, texts, plan) });
};
