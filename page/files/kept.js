// What is kept in the browser's storage from one visit to the next, a text by its key: the scenario, which has the names of files and the
// lines, and nothing of what files have; and which tab is open.
export class Kept {
  key;

  constructor(key) {
    this.key = key;
  }

  // The text that is kept, null if there is none, or no storage.
  get text() {
    try {
      return localStorage.getItem(this.key);
    } catch {
      return null;
    }
  }

  keep(text) {
    try {
      if (text) localStorage.setItem(this.key, text);
      else localStorage.removeItem(this.key);
    } catch {
      // Storage that is full or forbidden: the page's address has the scenario too.
    }
  }
}
